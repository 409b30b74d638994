// Right: the worker grows the memory, then publishes its length, and main's view follows it.
import { Worker, isMainThread, workerData } from "node:worker_threads";

const shared = isMainThread ? new SharedArrayBuffer(4, { maxByteLength: 64 }) : workerData;
const words = new Int32Array(shared);
if (isMainThread) {
  new Worker(new URL(import.meta.url), { workerData: shared });
  while (Atomics.load(words, 0) === 0) Atomics.wait(words, 0, 0);
  if (words.length !== 8 || words[7] !== 70) throw new Error(`${words.length} words, and the last is ${words[7]}`);
} else {
  shared.grow(32);
  words[7] = 70;
  Atomics.store(words, 0, words.length);
  Atomics.notify(words, 0);
}
