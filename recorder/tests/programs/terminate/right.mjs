// Right: main takes the lock itself before it terminates the worker, so the worker can't have it then.
import { once } from "node:events";
import { Worker } from "node:worker_threads";
import { lock, unlock } from "./lock.mjs";

const words = new Int32Array(new SharedArrayBuffer(8));
const worker = new Worker(new URL("./worker.mjs", import.meta.url), { workerData: words });
await once(worker, "message");
lock(words);
await worker.terminate();
unlock(words);
lock(words);
words[1] += 1;
