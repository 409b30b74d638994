// It counts once and goes on listening.
import { parentPort, workerData as words } from "node:worker_threads";

Atomics.add(words, 0, 1);
Atomics.notify(words, 0);
parentPort.on("message", () => {});
