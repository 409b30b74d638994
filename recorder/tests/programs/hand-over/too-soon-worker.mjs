// It publishes the length first, and writes the letters behind it.
import { workerData } from "node:worker_threads";

const length = new Int32Array(workerData, 0, 1);
const letters = new Uint8Array(workerData, 4);
Atomics.store(length, 0, 5);
letters[4] = 111;
Atomics.notify(length, 0);
