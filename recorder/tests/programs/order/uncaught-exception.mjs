// With a listener for uncaught exceptions the program goes on, ticks and microtasks included.
process.on("uncaughtExceptionMonitor", ({ message }, origin) => console.log("monitor", message, origin));
process.on("uncaughtException", ({ message }, origin) => console.log("uncaught", message, origin));
setTimeout(() => {
  process.nextTick(() => console.log("tick"));
  queueMicrotask(() => console.log("microtask"));
  throw new Error("in a timer");
}, 1);
setTimeout(() => console.log("next timer"), 15);
setTimeout(() => setImmediate(() => {
  setImmediate(() => console.log("next immediate"));
  process.nextTick(() => { throw new Error("in a tick"); });
  process.nextTick(() => console.log("next tick"));
}), 30);
process.on("exit", (status) => console.log("exit", status));
