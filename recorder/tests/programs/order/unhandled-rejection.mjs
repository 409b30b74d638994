// An unhandled rejection ends the program with exit code 1 after the microtasks, before the next immediate.
process.on("exit", (status) => console.log("exit", status));
setImmediate(() => console.log("never"));
Promise.reject(new Error("nobody handles this"));
queueMicrotask(() => console.log("microtask"));
process.nextTick(() => console.log("tick"));
