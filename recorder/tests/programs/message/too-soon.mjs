// Wrong: main posts the message first and writes what it announces afterwards.
import { once } from "node:events";
import { Worker } from "node:worker_threads";

const data = new Int32Array(new SharedArrayBuffer(16));
const worker = new Worker(new URL("./worker.mjs", import.meta.url), { workerData: data });
const answered = once(worker, "message");
worker.postMessage("square it");
await null;
Atomics.load(data, 3);
data[0] = 7;
await answered;
worker.postMessage("end");
