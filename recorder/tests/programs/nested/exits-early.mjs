// Wrong: the middle worker exits when its own work is done, which ends its child though that may not have counted yet.
import { once } from "node:events";
import { Worker, isMainThread, workerData } from "node:worker_threads";

const self = new URL(import.meta.url);
if (isMainThread) {
  const words = new Int32Array(new SharedArrayBuffer(4));
  await once(new Worker(self, { workerData: { words, depth: 1 } }), "exit");
  const counted = Atomics.load(words, 0);
  if (counted !== 4) throw new Error(`${counted} of 4 are counted`);
} else {
  const { words, depth } = workerData;
  if (depth > 0) {
    const child = new Worker(self, { workerData: { words, depth: depth - 1 } });
    await once(child, "online");
  }
  for (let time = 0; time < 2; time += 1) Atomics.add(words, 0, 1);
  if (depth > 0) process.exit(0);
}
