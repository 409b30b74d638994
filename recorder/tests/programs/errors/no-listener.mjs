// Wrong: the worker throws if main hasn't set the word yet, and nobody listens for "error".
import { Worker } from "node:worker_threads";

const words = new Int32Array(new SharedArrayBuffer(4));
new Worker(new URL("./needs-word.mjs", import.meta.url), { workerData: words });
await null;
Atomics.store(words, 0, 1);
