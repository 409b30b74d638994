// Right: a thread that doesn't get the answer by its deadline says so, and one that gets it uses it.
import { Worker } from "node:worker_threads";

const words = new Int32Array(new SharedArrayBuffer(8));
const worker = new Worker(new URL("./worker.mjs", import.meta.url), { workerData: words });
const deadline = performance.now() + 40;
for (let left = 40; Atomics.load(words, 0) === 0 && left > 0; left = deadline - performance.now()) {
  Atomics.wait(words, 0, 0, left);
}
if (Atomics.load(words, 0) === 1 && words[1] !== 42) throw new Error(`the answer is ${words[1]}`);
worker.unref();
