// Right: the lock is 0 free, 1 taken, 2 taken and perhaps waited for; a thread that has waited takes it as 2.
import { count } from "./threads.mjs";

function lock(words) {
  if (Atomics.compareExchange(words, 0, 0, 1) === 0) return;
  while (Atomics.exchange(words, 0, 2) !== 0) Atomics.wait(words, 0, 2);
}

function unlock(words) {
  if (Atomics.exchange(words, 0, 0) === 2) Atomics.notify(words, 0, 1);
}

await count({ lock, unlock });
