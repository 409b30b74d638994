// It writes one number a round, counts the round and notifies.
import { workerData as words } from "node:worker_threads";

for (let round = 1; round <= 3; round += 1) {
  words[round] = round * 10;
  Atomics.store(words, 0, round);
  Atomics.notify(words, 0);
}
