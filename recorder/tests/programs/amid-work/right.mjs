// Right: who finds the lock taken sleeps on the lock.
import { run } from "./threads.mjs";

await run({
  threads: 2,
  words: 2,
  part({ words, work }) {
    for (let time = 0; time < 2; time += 1) {
      work();
      while (Atomics.compareExchange(words, 0, 0, 1) !== 0) Atomics.wait(words, 0, 1);
      words[1] += 1;
      work();
      Atomics.store(words, 0, 0);
      Atomics.notify(words, 0, 1);
    }
  },
  after(words, steps) {
    if (words[1] !== 4 || steps !== 240) throw new Error(`counted ${words[1]} in ${steps} steps`);
  },
});
