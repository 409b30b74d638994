// Right: the worker grows the memory, then notifies main, which finds a longer buffer with what is behind the old end.
import { Worker, isMainThread, workerData } from "node:worker_threads";

const memory = isMainThread ? new WebAssembly.Memory({ initial: 1, maximum: 3, shared: true }) : workerData;
const words = new Int32Array(memory.buffer);
if (isMainThread) {
  new Worker(new URL(import.meta.url), { workerData: memory });
  while (Atomics.load(words, 0) === 0) Atomics.wait(words, 0, 0);
  const longer = new Int32Array(memory.buffer);
  const isRight = longer.length === 2 * words.length && longer[words.length] === 70;
  if (!isRight) throw new Error(`it has ${longer.length} words`);
} else {
  memory.grow(1);
  new Int32Array(memory.buffer)[words.length] = 70;
  Atomics.store(words, 0, 1);
  Atomics.notify(words, 0);
}
