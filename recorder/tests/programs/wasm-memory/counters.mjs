// Main and a worker count to three each, in a word of a WebAssembly memory that main made, in a way that is given.
import { once } from "node:events";
import { Worker, isMainThread, workerData } from "node:worker_threads";

export async function count(one) {
  const memory = isMainThread ? new WebAssembly.Memory({ initial: 1, maximum: 2, shared: true }) : workerData;
  const words = new Int32Array(memory.buffer, 64, 4);
  const other = isMainThread ? new Worker(process.argv[1], { workerData: memory }) : undefined;
  for (let time = 0; time < 3; time += 1) one(words);
  if (!isMainThread) return;
  await once(other, "exit");
  if (Atomics.load(words, 1) !== 6) throw new Error(`counted ${Atomics.load(words, 1)}`);
}
