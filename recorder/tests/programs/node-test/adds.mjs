// It adds to a word, and says so by the bell.
import { parentPort, workerData as words } from "node:worker_threads";

if (parentPort === null) throw new Error("this is for a worker");
Atomics.add(words, 0, 1);
Atomics.notify(words, 1);
