// It writes the letters, then their number, and wakes the thread that waits for it.
import { workerData } from "node:worker_threads";

const length = new Int32Array(workerData, 0, 1);
new Uint8Array(workerData, 4).set([104, 101, 108, 108, 111]);
Atomics.store(length, 0, 5);
Atomics.notify(length, 0);
