// Ticks, promises and microtasks that are begun at once, and begin others.

module.exports = () => {
  process.nextTick(() => console.log("tick 1"));
  Promise.resolve().then(() => console.log("promise 1"));
  queueMicrotask(() => {
    console.log("microtask");
    process.nextTick(() => console.log("tick 3"));
    queueMicrotask(() => console.log("microtask of a microtask"));
  });
  process.nextTick(() => {
    console.log("tick 2");
    Promise.resolve().then(() => console.log("promise of a tick"));
  });
  setImmediate(() => console.log("immediate"));
  console.log("main");
};
