// Right: main awaits the worker's word without blocking, and looks again whenever it is notified.
import { Worker } from "node:worker_threads";

const words = new Int32Array(new SharedArrayBuffer(16));
new Worker(new URL("./worker.mjs", import.meta.url), { workerData: words });
for (let round = 1; round <= 3; round += 1) {
  for (let seen = Atomics.load(words, 0); seen < round; seen = Atomics.load(words, 0)) {
    const waiting = Atomics.waitAsync(words, 0, seen);
    if (waiting.async) await waiting.value;
  }
  if (words[round] !== round * 10) throw new Error(`round ${round} has ${words[round]}`);
}
