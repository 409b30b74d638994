// Main and two workers add to one ordinary number, each time under a lock: main twice, and each worker as it is asked.
import { once } from "node:events";
import { Worker, isMainThread, workerData } from "node:worker_threads";

export async function count({ lock, unlock, workerTimes = 2 }) {
  const words = isMainThread ? new Int32Array(new SharedArrayBuffer(16)) : workerData;
  const others = isMainThread ? [1, 2].map(() => new Worker(process.argv[1], { workerData: words })) : [];
  const times = isMainThread ? 2 : workerTimes;
  for (let time = 0; time < times; time += 1) {
    lock(words);
    words[2] += 1;
    unlock(words);
  }
  await Promise.all(others.map((other) => once(other, "exit")));
  if (isMainThread && words[2] !== 2 + 2 * workerTimes) throw new Error(`counted ${words[2]}`);
}
