// Wrong: main uses the answer though its time may be up before the worker has written it.
import { Worker } from "node:worker_threads";

const words = new Int32Array(new SharedArrayBuffer(8));
const worker = new Worker(new URL("./worker.mjs", import.meta.url), { workerData: words });
Atomics.wait(words, 0, 0, 40);
const answer = words[1];
if (answer !== 42) throw new Error(`the answer is ${answer}`);
worker.unref();
