// waitAsync in one thread: at once, notified, and timed out; the promise is settled behind the microtasks of now.
const words = new Int32Array(new SharedArrayBuffer(8));
console.log(Atomics.waitAsync(words, 0, 1), Atomics.waitAsync(words, 0, 0, 0));
const { async: isAsync, value } = Atomics.waitAsync(words, 0, 0);
console.log(isAsync, value instanceof Promise);
const other = Atomics.waitAsync(words, 0, 0, 10_000).value;
value.then((how) => console.log("first", how));
other.then((how) => console.log("second", how));
console.log(Atomics.notify(words, 0, 1));
await null;
console.log("after null");
await value;
console.log(Atomics.notify(words, 0), Atomics.notify(words, 0), await other);
const keeps = setTimeout(() => {}, 10_000);
console.log(await Atomics.waitAsync(words, 0, 0, 5).value);
clearTimeout(keeps);
Atomics.waitAsync(words, 1, 0).value.then(() => console.log("never"));
process.on("exit", (status) => console.log("exit", status));
