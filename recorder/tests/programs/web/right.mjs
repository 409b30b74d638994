// Right: the worker sleeps until the page has stored 1, and says what it has found.
const words = new Int32Array(new SharedArrayBuffer(8));
const worker = new Worker("sleeper.mjs", { type: "module" });
const answered = new Promise((resolve, reject) => {
  worker.onmessage = ({ data }) => (data === "sleeps" ? wake() : resolve(data));
  worker.onerror = reject;
});

function wake() {
  Atomics.store(words, 1, 42);
  Atomics.store(words, 0, 1);
  Atomics.notify(words, 0);
}

worker.postMessage(words);
if (await answered !== 42) throw new Error("the worker has found something else");
