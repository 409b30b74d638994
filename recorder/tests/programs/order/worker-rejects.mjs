// A worker with an unhandled rejection ends with 1, behind its microtasks and before its next immediate.
import { Worker } from "node:worker_threads";

const words = new Int32Array(new SharedArrayBuffer(12));
const worker = new Worker(`const { workerData: words } = require("node:worker_threads");
setImmediate(() => Atomics.store(words, 0, 1));
Promise.reject(new TypeError("in the worker"));
queueMicrotask(() => Atomics.store(words, 1, 1));
process.on("exit", (status) => Atomics.store(words, 2, status + 10));`, { eval: true, workerData: words });
worker.on("error", ({ name, message }) => console.log("error", name, message));
worker.on("exit", (status) => console.log("exit", status, words));
