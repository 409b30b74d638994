// Wrong: a thread that finds the lock taken sixteen times in a row goes on as if it had it.
import { once } from "node:events";
import { Worker, isMainThread, workerData } from "node:worker_threads";

const words = isMainThread ? new Int32Array(new SharedArrayBuffer(8)) : workerData;
const other = isMainThread ? new Worker(new URL(import.meta.url), { workerData: words }) : undefined;
for (let time = 0; time < 3; time += 1) {
  for (let look = 0; look < 16 && Atomics.compareExchange(words, 0, 0, 1) !== 0;) look += 1;
  const sum = Atomics.load(words, 1);
  Atomics.store(words, 1, sum + 1);
  Atomics.store(words, 0, 0);
}
if (isMainThread) {
  await once(other, "exit");
  if (Atomics.load(words, 1) !== 6) throw new Error(`counted ${Atomics.load(words, 1)}`);
}
