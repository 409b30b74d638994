// The exit code that is set, what the events get, and a listener that changes it.
process.on("beforeExit", (status) => {
  console.log("beforeExit", status);
  process.exitCode = 4;
});
process.on("exit", (status) => {
  console.log("exit", status, process.exitCode);
  process.exitCode = 5;
  setTimeout(() => console.log("never"), 0);
  process.nextTick(() => console.log("never"));
});
process.on("exit", (status) => console.log("exit again", status, process.exitCode));
process.exitCode = 3;
