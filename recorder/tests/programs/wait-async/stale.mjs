// Wrong: main looks at the rounds and waits at the bell, so a notify between the two is missed and main never ends.
import { Worker } from "node:worker_threads";

const words = new Int32Array(new SharedArrayBuffer(8));
new Worker(new URL("../hand-over/rounds-worker.mjs", import.meta.url), { workerData: words });
for (let round = 1; round <= 3; round += 1) {
  if (Atomics.load(words, 0) < round) await Atomics.waitAsync(words, 1, 0).value;
}
