// Wrong: each of three threads takes its own lock and then that of the next one.
import { run } from "./threads.mjs";

function lock(words, at) {
  while (Atomics.compareExchange(words, at, 0, 1) !== 0) Atomics.wait(words, at, 1);
}

function unlock(words, at) {
  Atomics.store(words, at, 0);
  Atomics.notify(words, at, 1);
}

await run({
  threads: 3,
  words: 3,
  part({ words, number, work }) {
    const next = (number + 1) % 3;
    work();
    lock(words, number);
    lock(words, next);
    unlock(words, next);
    unlock(words, number);
  },
});
