// Wrong: main lets the worker go at once, so the program may end before the worker has counted.
import { Worker } from "node:worker_threads";

const words = new Int32Array(new SharedArrayBuffer(4));
const worker = new Worker(new URL("./counts.mjs", import.meta.url), { workerData: words });
worker.once("online", () => worker.unref());
process.on("exit", () => { if (Atomics.load(words, 0) !== 1) process.exitCode = 1; });
