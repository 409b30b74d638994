// Wrong: who finds the lock taken sleeps on another word than the lock, so a wake-up that comes before is lost.
import { run } from "./threads.mjs";

const LOCK = 0;
const WAKE = 1;

await run({
  threads: 2,
  words: 2,
  part({ words, work }) {
    for (let time = 0; time < 2; time += 1) {
      work();
      while (Atomics.exchange(words, LOCK, 1) !== 0) Atomics.wait(words, WAKE, 0);
      work();
      Atomics.store(words, LOCK, 0);
      Atomics.notify(words, WAKE, 1);
    }
  },
});
