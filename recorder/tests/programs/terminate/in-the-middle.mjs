// Wrong: main terminates the worker at any time, also while the worker has the lock, and then waits for the lock.
import { once } from "node:events";
import { Worker } from "node:worker_threads";
import { lock } from "./lock.mjs";

const words = new Int32Array(new SharedArrayBuffer(8));
const worker = new Worker(new URL("./worker.mjs", import.meta.url), { workerData: words });
await once(worker, "message");
await worker.terminate();
lock(words);
words[1] += 1;
