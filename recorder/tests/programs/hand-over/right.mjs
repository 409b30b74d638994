// Right: the worker hands a word over in shared memory, and main waits for its length and looks again when it wakes.
import { Worker } from "node:worker_threads";

const shared = new SharedArrayBuffer(64);
const length = new Int32Array(shared, 0, 1);
const letters = new Uint8Array(shared, 4);
new Worker(new URL("./worker.mjs", import.meta.url), { workerData: shared });
while (Atomics.load(length, 0) === 0) Atomics.wait(length, 0, 0);
const text = String.fromCharCode(...letters.slice(0, length[0]));
if (text !== "hello") throw new Error(`handed over: ${text}`);
