// An immediate that is set in an immediate waits for the next turn; ticks and microtasks run between two immediates.
setImmediate(() => {
  console.log("1");
  setImmediate(() => {
    console.log("4");
    setImmediate((text) => console.log(text), "6");
  });
  process.nextTick(() => console.log("tick after 1"));
  Promise.resolve().then(() => console.log("promise after 1"));
});
const cleared = setImmediate(() => console.log("never"));
setImmediate(() => {
  console.log("2");
  clearImmediate(cleared);
  setImmediate(() => console.log("5"));
});
setImmediate(() => console.log("3"));
clearImmediate(cleared);
