// Wrong: main sleeps once, so the notify of one answer may wake it before the next. The worker reads much before it.
import { askAll } from "./bridge.mjs";

askAll({
  reads: 20,
  wait: (word) => {
    Atomics.wait(word, 0, 0);
    Atomics.store(word, 0, 0);
  },
});
