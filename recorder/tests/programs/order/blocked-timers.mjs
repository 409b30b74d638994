// Timers that are due while main blocks run in the order of their times, before an immediate that one of them sets.
const words = new Int32Array(new SharedArrayBuffer(4));
setTimeout(() => console.log("150"), 150);
setTimeout(() => {
  console.log("50");
  setImmediate(() => console.log("immediate"));
}, 50);
setTimeout(() => console.log("100"), 100);
console.log(Atomics.wait(words, 0, 0, 600));
