// Wrong: a thread that has waited takes the lock as 1, so a third one that still sleeps is forgotten.
import { count } from "./threads.mjs";

function lock(words) {
  if (Atomics.compareExchange(words, 0, 0, 1) === 0) return;
  while (Atomics.compareExchange(words, 0, 0, 1) !== 0) {
    if (Atomics.compareExchange(words, 0, 1, 2) === 0) continue;
    Atomics.wait(words, 0, 2);
  }
}

function unlock(words) {
  if (Atomics.exchange(words, 0, 0) === 2) Atomics.notify(words, 0, 1);
}

await count({ lock, unlock, workerTimes: 1 });
