// It answers by a timer of 20 ms.
import { workerData as words } from "node:worker_threads";

setTimeout(() => {
  words[1] = 42;
  Atomics.store(words, 0, 1);
  Atomics.notify(words, 0);
}, 20);
