// Two workers count in sixteen shards, each of which has memory of its own. Main adds up what they have counted.
import { once } from "node:events";
import { Worker, isMainThread, workerData } from "node:worker_threads";

const [SHARDS, LOCK, COUNT] = [16, 0, 1];

function count({ shards, shift }) {
  for (let at = 0; at < SHARDS; at += 1) {
    const lock = shards[(at + shift) % SHARDS];
    while (Atomics.compareExchange(lock, LOCK, 0, 1) !== 0) Atomics.wait(lock, LOCK, 1);
    shards[at][COUNT] += 1;
    Atomics.store(lock, LOCK, 0);
    Atomics.notify(lock, LOCK, 1);
  }
}

export async function run(shifts) {
  if (!isMainThread) return count(workerData);
  const shards = Array.from({ length: SHARDS }, () => new Int32Array(new SharedArrayBuffer(8)));
  const workers = shifts.map((shift) => new Worker(process.argv[1], { workerData: { shards, shift } }));
  await Promise.all(workers.map((worker) => once(worker, "exit")));
  const sum = shards.reduce((before, words) => before + words[COUNT], 0);
  if (sum !== 2 * SHARDS) throw new Error(`counted ${sum}`);
}
