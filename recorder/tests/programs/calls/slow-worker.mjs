// It doubles each number 10 ms later: it posts the answer, sets the word, and notifies at the end.
import { setTimeout as sleep } from "node:timers/promises";
import { parentPort, workerData } from "node:worker_threads";

const { word, port } = workerData;
parentPort.on("message", async ({ id, number }) => {
  await sleep(10);
  port.postMessage({ id, answer: number * 2 });
  Atomics.store(word, 0, 1);
  Atomics.notify(word, 0);
});
