// Wrong: main takes it for the end of the numbers when there was no new one nine times in a row.
import { Worker, isMainThread, workerData } from "node:worker_threads";

const [PUT, NUMBERS, COUNT] = [0, 1, 3];
if (!isMainThread) {
  for (let number = 1; number <= COUNT; number += 1) {
    Atomics.store(workerData, NUMBERS + number - 1, number);
    Atomics.store(workerData, PUT, number);
    Atomics.notify(workerData, PUT);
  }
} else {
  const words = new Int32Array(new SharedArrayBuffer(16));
  new Worker(new URL(import.meta.url), { workerData: words });
  while (Atomics.load(words, PUT) === 0) Atomics.wait(words, PUT, 0);
  let [sum, taken] = [0, 0];
  for (let empty = 0; empty < 9 && taken < COUNT; empty += 1) {
    if (Atomics.load(words, PUT) === taken) continue;
    sum += Atomics.load(words, NUMBERS + taken);
    taken += 1;
    empty = 0;
  }
  if (sum !== 6) throw new Error(`the sum is ${sum}`);
}
