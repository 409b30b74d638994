// Wrong: the worker sets the word for a short time only, and main looks for it after its waitAsync is notified.
import { Worker, isMainThread, workerData } from "node:worker_threads";

const words = isMainThread ? new Int32Array(new SharedArrayBuffer(8)) : workerData;
if (isMainThread) {
  const { value } = Atomics.waitAsync(words, 0, 0);
  new Worker(new URL(import.meta.url), { workerData: words });
  await value;
  if (Atomics.load(words, 0) === 0) throw new Error("notified, and the word is 0");
} else {
  Atomics.store(words, 0, 1);
  Atomics.notify(words, 0);
  for (let step = 0; step < 8; step += 1) Atomics.add(words, 1, 1);
  Atomics.store(words, 0, 0);
}
