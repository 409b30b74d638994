// Without a listener an exception in a timer ends the program with 1; the timers behind it don't run.
process.on("exit", (status) => console.log("exit", status));
setTimeout(() => {
  queueMicrotask(() => console.log("never"));
  process.nextTick(() => console.log("never"));
  throw new Error("ends the program");
}, 1);
setTimeout(() => console.log("never"), 1);
