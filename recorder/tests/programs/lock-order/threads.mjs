// Main and a worker move amounts between two accounts, each with a lock.
import { once } from "node:events";
import { Worker, isMainThread, workerData } from "node:worker_threads";

function lock(words, at) {
  while (Atomics.compareExchange(words, at, 0, 1) !== 0) Atomics.wait(words, at, 1);
}

function unlock(words, at) {
  Atomics.store(words, at, 0);
  Atomics.notify(words, at, 1);
}

export async function move(lockOrder) {
  const words = isMainThread ? new Int32Array(new SharedArrayBuffer(16)) : workerData;
  const other = isMainThread ? new Worker(process.argv[1], { workerData: words }) : undefined;
  const [from, to] = isMainThread ? [0, 1] : [1, 0];
  const locks = lockOrder(from, to);
  for (const at of locks) lock(words, at);
  words[2 + from] -= 5;
  words[2 + to] += 5;
  for (const at of locks) unlock(words, at);
  if (!isMainThread) return;
  await once(other, "exit");
  if (words[2] !== 0 || words[3] !== 0) throw new Error(`the accounts have ${words[2]} and ${words[3]}`);
}
