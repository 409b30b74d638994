// Right: main lets the worker go only when the worker has counted.
import { Worker } from "node:worker_threads";

const words = new Int32Array(new SharedArrayBuffer(4));
const worker = new Worker(new URL("./counts.mjs", import.meta.url), { workerData: words });
worker.unref();
while (Atomics.load(words, 0) === 0) Atomics.wait(words, 0, 0);
process.on("exit", () => { if (Atomics.load(words, 0) !== 1) process.exitCode = 1; });
