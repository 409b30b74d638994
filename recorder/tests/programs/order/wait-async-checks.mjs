// What waitAsync refuses, converts and returns.
const words = new Int32Array(new SharedArrayBuffer(16));
const tries = [
  () => Atomics.waitAsync(new Int32Array(4), 0, 0),
  () => Atomics.waitAsync(new Int16Array(new SharedArrayBuffer(4)), 0, 0),
  () => Atomics.waitAsync({}, 0, 0),
  () => Atomics.waitAsync(words, 9, 0),
  () => Atomics.waitAsync(words, -1, 0),
  () => Atomics.waitAsync(words, 0, 0n),
  () => Atomics.waitAsync(words, 0, 0, 1n),
  () => Atomics.waitAsync(words, "0", "5", "7"),
  () => Atomics.waitAsync(words, 0, 0, -5),
  () => Atomics.waitAsync(words, 0, 0, NaN),
  () => Atomics.waitAsync(new BigInt64Array(words.buffer), 0, 0n, 0),
  () => Atomics.waitAsync(new BigInt64Array(words.buffer), 0, 0),
];
for (const each of tries) {
  try {
    const found = each();
    console.log(found.async, found.value);
  } catch (error) {
    console.log(`${error}`);
  }
}
const { waitAsync } = Atomics;
console.log(waitAsync.name, waitAsync.length, Object.getOwnPropertyDescriptor(Atomics, "waitAsync").enumerable);
const converted = (name) => ({ [Symbol.toPrimitive]: () => { console.log(name); return 0; } });
const result = waitAsync(words, converted("index"), converted("value"), converted("timeout"));
console.log(Object.keys(result), Object.getPrototypeOf(result) === Object.prototype);
console.log(Atomics.notify(words, 0, 0), Atomics.notify(words, 0));
