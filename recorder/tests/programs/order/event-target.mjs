// An EventTarget's listeners run in order; one that throws is an uncaught exception at the next tick.
process.on("uncaughtException", ({ message }) => console.log("uncaught", message));
const target = new EventTarget();
target.addEventListener("go", () => { throw new Error("in a listener"); });
target.addEventListener("go", (event) => {
  console.log("second", event.cancelable, event.defaultPrevented);
  event.preventDefault();
});
target.addEventListener("go", (event) => {
  console.log("third", event.defaultPrevented);
  event.stopImmediatePropagation();
}, { once: true });
target.addEventListener("go", () => console.log("only the second time"));
console.log(target.dispatchEvent(new Event("go", { cancelable: true })));
console.log(target.dispatchEvent(new Event("go")));
process.nextTick(() => console.log("tick"));
