// A beforeExit listener that starts new work is called again when that is done.
let times = 0;
process.on("beforeExit", (status) => {
  times += 1;
  console.log("beforeExit", status, times);
  if (times === 1) setTimeout(() => console.log("timer"), 1);
  if (times === 2) setImmediate(() => console.log("immediate"));
  if (times === 3) queueMicrotask(() => console.log("microtask"));
});
process.on("exit", () => console.log("exit", times));
