// Two workers add 1 each to a shared sum of main's, in a way that is given.
import { once } from "node:events";
import { Worker, isMainThread, workerData } from "node:worker_threads";

export async function add(one) {
  const sum = isMainThread ? new BigInt64Array(new SharedArrayBuffer(8)) : workerData;
  if (!isMainThread) return one(sum);
  const workers = [1, 2].map(() => new Worker(process.argv[1], { workerData: sum }));
  await Promise.all(workers.map((worker) => once(worker, "exit")));
  if (Atomics.load(sum, 0) !== 2n) throw new Error(`the sum is ${Atomics.load(sum, 0)}`);
}
