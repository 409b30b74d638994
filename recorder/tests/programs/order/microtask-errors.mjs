// An error in queueMicrotask is an uncaught exception, and the microtasks behind it still run.
process.on("uncaughtException", ({ message }, origin) => {
  console.log("uncaught", message, origin);
  queueMicrotask(() => console.log("microtask of the listener"));
});
setImmediate(() => {
  queueMicrotask(() => { throw new Error("one"); });
  queueMicrotask(() => console.log("two"));
  Promise.reject(new Error("three"));
  queueMicrotask(() => console.log("four"));
});
