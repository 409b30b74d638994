// It counts the rounds in one word and rings at the other.
import { workerData as words } from "node:worker_threads";

for (let round = 1; round <= 3; round += 1) {
  Atomics.store(words, 0, round);
  Atomics.notify(words, 1, 1);
}
