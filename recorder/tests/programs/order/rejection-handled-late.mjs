// With a listener an unhandled rejection is an event, and so is its late handler.
process.on("unhandledRejection", (reason, promise) => {
  console.log("unhandledRejection", reason.message, promise === late);
  setImmediate(() => late.catch(({ message }) => console.log("caught", message)));
});
process.on("rejectionHandled", (promise) => console.log("rejectionHandled", promise === late));
const late = Promise.reject(new Error("late"));
const early = Promise.reject(new Error("early"));
early.catch(({ message }) => console.log("caught", message));
process.on("exit", (status) => console.log("exit", status));
