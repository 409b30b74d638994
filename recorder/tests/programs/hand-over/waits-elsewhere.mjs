// Wrong: main looks at one word and waits on another, which doesn't change: a notify between the two is missed.
import { Worker } from "node:worker_threads";

const words = new Int32Array(new SharedArrayBuffer(8));
new Worker(new URL("./rounds-worker.mjs", import.meta.url), { workerData: words });
for (let round = 1; round <= 3; round += 1) {
  if (Atomics.load(words, 0) < round) Atomics.wait(words, 1, 0);
}
