// Main and three workers use two permits. A thread that holds a permit counts how many threads hold one.
import { once } from "node:events";
import { Worker, isMainThread, workerData } from "node:worker_threads";

const PERMITS = 2;

export async function use({ acquire, release }) {
  const words = isMainThread ? new Int32Array(new SharedArrayBuffer(16)) : workerData;
  if (isMainThread) Atomics.store(words, 0, PERMITS);
  const others = isMainThread ? [1, 2, 3].map(() => new Worker(process.argv[1], { workerData: words })) : [];
  acquire(words);
  const users = Atomics.add(words, 1, 1) + 1;
  if (users > PERMITS) throw new Error(`${users} use ${PERMITS} permits`);
  Atomics.sub(words, 1, 1);
  release(words);
  await Promise.all(others.map((other) => once(other, "exit")));
}
