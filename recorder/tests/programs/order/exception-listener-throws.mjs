// A listener for uncaught exceptions that throws itself ends the program with 7.
process.on("exit", (status) => console.log("exit", status));
process.on("uncaughtException", ({ message }) => {
  console.log("uncaught", message);
  throw new Error("in the listener");
});
setTimeout(() => { throw new Error("in a timer"); }, 1);
setTimeout(() => console.log("never"), 20);
