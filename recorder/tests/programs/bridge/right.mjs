// Right: main sleeps until the word is set. It does not matter who wakes it.
import { askAll } from "./bridge.mjs";

askAll({
  reads: 5,
  wait: (word) => {
    while (Atomics.exchange(word, 0, 0) === 0) Atomics.wait(word, 0, 0);
  },
});
