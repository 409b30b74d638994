// Wrong: the worker looks at one word and sleeps at another, which the page never changes.
const words = new Int32Array(new SharedArrayBuffer(8));
const worker = new Worker("looks-and-sleeps.mjs", { type: "module", name: "sleeper" });
const answered = new Promise((resolve) => { worker.onmessage = ({ data }) => resolve(data); });
worker.postMessage(words);
Atomics.store(words, 0, 1);
Atomics.notify(words, 1);
await answered;
