// Wrong: a number is read, and stored again with one more only after other work.
import { run } from "./threads.mjs";

await run({
  threads: 2,
  words: 1,
  part({ words, work }) {
    work();
    const number = Atomics.load(words, 0);
    Atomics.store(words, 0, number + 1);
    work();
  },
  after(words) {
    if (words[0] !== 2) throw new Error(`counted ${words[0]}`);
  },
});
