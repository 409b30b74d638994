// Wrong: the worker publishes the new length before it grows the memory.
import { Worker, isMainThread, workerData } from "node:worker_threads";

const shared = isMainThread ? new SharedArrayBuffer(4, { maxByteLength: 64 }) : workerData;
const words = new Int32Array(shared);
if (isMainThread) {
  new Worker(new URL(import.meta.url), { workerData: shared });
  while (Atomics.load(words, 0) === 0) Atomics.wait(words, 0, 0);
  const last = Atomics.load(words, Atomics.load(words, 0) - 1);
  if (last !== 0) throw new Error(`the last word is ${last}`);
} else {
  Atomics.store(words, 0, 8);
  Atomics.notify(words, 0);
  shared.grow(4 * Atomics.load(words, 0));
}
