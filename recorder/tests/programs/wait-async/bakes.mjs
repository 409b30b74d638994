// It puts two pieces there, one after the other, and notifies all for each.
import { workerData as words } from "node:worker_threads";

for (let piece = 0; piece < 2; piece += 1) {
  Atomics.add(words, 0, 1);
  Atomics.notify(words, 0);
}
