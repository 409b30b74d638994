// Wrong: the worker publishes the length before it has written the letters.
import { Worker } from "node:worker_threads";

const shared = new SharedArrayBuffer(64);
const length = new Int32Array(shared, 0, 1);
const letters = new Uint8Array(shared, 4);
new Worker(new URL("./too-soon-worker.mjs", import.meta.url), { workerData: shared });
while (Atomics.load(length, 0) === 0) Atomics.wait(length, 0, 0);
const last = letters[4];
if (last !== 111) throw new Error(`the last letter is ${last}`);
