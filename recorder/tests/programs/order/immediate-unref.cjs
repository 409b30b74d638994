// An immediate that doesn't keep the thread runs with others of its round, and never if nothing else keeps the thread.
setImmediate(() => {
  console.log("immediate");
  setImmediate(() => console.log("in the next round")).unref();
  setImmediate(() => {
    console.log("beside it");
    setImmediate(() => console.log("never")).unref();
  });
});
process.on("beforeExit", () => {
  console.log("before exit");
  setImmediate(() => console.log("never, too")).unref();
});
process.on("exit", () => console.log("exit"));
