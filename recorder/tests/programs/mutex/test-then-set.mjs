// Wrong: looking whether the lock is free and taking it are two calls, so two threads may have it at once.
import { count } from "./threads.mjs";

function lock(words) {
  while (Atomics.load(words, 0) === 1) Atomics.wait(words, 0, 1);
  Atomics.store(words, 0, 1);
}

function unlock(words) {
  Atomics.store(words, 0, 0);
  Atomics.notify(words, 0, 1);
}

await count({ lock, unlock });
