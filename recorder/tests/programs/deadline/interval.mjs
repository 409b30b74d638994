// Right: main looks by an interval whether the worker has finished, and stops the interval when it has.
import { Worker, isMainThread, workerData } from "node:worker_threads";

const words = isMainThread ? new Uint8Array(new SharedArrayBuffer(1)) : workerData;
if (isMainThread) {
  new Worker(new URL(import.meta.url), { workerData: words });
  const looking = setInterval(() => {
    if (Atomics.load(words, 0) === 3) clearInterval(looking);
  }, 5);
} else {
  for (let time = 0; time < 3; time += 1) {
    await new Promise((done) => { setTimeout(done, 2); });
    Atomics.add(words, 0, 1);
  }
}
