// Wrong: main doesn't wait until the worker has written behind the old end.
import { Worker, isMainThread, workerData } from "node:worker_threads";

const memory = isMainThread ? new WebAssembly.Memory({ initial: 1, maximum: 3, shared: true }) : workerData;
const words = new Int32Array(memory.buffer);
if (isMainThread) {
  new Worker(new URL(import.meta.url), { workerData: memory });
  while (memory.buffer.byteLength === words.byteLength) Atomics.wait(words, 0, 0, 1);
  const last = new Int32Array(memory.buffer)[words.length];
  if (last !== 70) throw new Error(`it is ${last}`);
} else {
  memory.grow(1);
  new Int32Array(memory.buffer)[words.length] = 70;
}
