// Wrong: as reads, but main looks at the word before it sleeps.
import { askAll } from "./bridge.mjs";

askAll({
  reads: 5,
  wait: (word) => {
    if (Atomics.load(word, 0) === 0) Atomics.wait(word, 0, 0);
    Atomics.store(word, 0, 0);
  },
});
