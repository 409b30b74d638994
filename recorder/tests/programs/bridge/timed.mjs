// Wrong: as reads, but main has a time limit, which is never met.
import { askAll } from "./bridge.mjs";

askAll({
  reads: 10,
  wait: (word) => {
    if (Atomics.wait(word, 0, 0, 60_000) === "timed-out") throw new Error("no answer in 60 s");
    Atomics.store(word, 0, 0);
  },
});
