// Wrong: a thread looks which round it is after it has arrived, so it may wait for the next round to end.
import { meet } from "./threads.mjs";

await meet(2, (words, members) => {
  if (Atomics.add(words, 0, 1) === members - 1) {
    Atomics.store(words, 0, 0);
    Atomics.add(words, 1, 1);
    Atomics.notify(words, 1);
    return;
  }
  const round = Atomics.load(words, 1);
  while (Atomics.load(words, 1) === round) Atomics.wait(words, 1, round);
});
