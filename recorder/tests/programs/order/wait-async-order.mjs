// Promises of waitAsync are settled in the order of the notifies, behind ticks and microtasks, before immediates.
const words = new Int32Array(new SharedArrayBuffer(16));
const say = (text) => () => console.log(text);
const [one, other, last] = [0, 1, 0].map((index) => Atomics.waitAsync(words, index, 0).value);
one.then(say("one")).then(say("behind one"));
other.then(say("other")).then(say("behind other"));
last.then(say("last"));
console.log(Atomics.notify(words, 1), Atomics.notify(words, 0, 1));
setImmediate(say("immediate"));
queueMicrotask(say("microtask"));
process.nextTick(say("tick"));
console.log(Atomics.notify(words, 0, 1), Atomics.notify(words, 0, 1));
process.on("beforeExit", say("before exit"));
