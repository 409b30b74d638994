// A listener of exit that throws: those behind it don't run, and the exit code is the one that was set.
process.on("exit", (status) => {
  console.log("exit", status);
  throw new Error("in exit");
});
process.on("exit", (status) => console.log("exit again", status));
process.exitCode = 2;
