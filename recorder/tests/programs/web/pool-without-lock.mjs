// Wrong: two workers add to a word without a lock.
const words = new Int32Array(new SharedArrayBuffer(4));
const workers = [1, 2].map(() => new Worker(new URL("adds-at-once.mjs", import.meta.url), { type: "module" }));
await Promise.all(workers.map((worker) => new Promise((resolve) => {
  worker.onmessage = resolve;
  worker.postMessage(words);
})));
if (words[0] !== 2) throw new Error(`counted ${words[0]}`);
