// It posts that it has begun, and counts under the lock ten times.
import { parentPort, workerData as words } from "node:worker_threads";
import { lock, unlock } from "./lock.mjs";

parentPort.postMessage("begun");
for (let time = 0; time < 10; time += 1) {
  lock(words);
  words[1] += 1;
  unlock(words);
  await new Promise((done) => { setImmediate(done); });
}
