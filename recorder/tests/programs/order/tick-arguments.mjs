// Arguments of ticks, timers and immediates, and what they refuse.
process.nextTick(console.log, "tick", 1);
setImmediate(console.log, "immediate", 2);
setImmediate(() => setTimeout(console.log, 1, "timer", 3));
for (const start of [process.nextTick, setTimeout, setImmediate, setInterval, queueMicrotask]) {
  try {
    start("no function");
  } catch ({ name, code }) {
    console.log(start.name, name, code);
  }
}
clearTimeout(undefined);
clearTimeout({});
clearImmediate(null);
