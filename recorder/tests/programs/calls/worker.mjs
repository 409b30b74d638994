// It doubles numbers by promises: it posts the answer, sets the word, and notifies at the end.
import { parentPort, workerData } from "node:worker_threads";

const { word, port } = workerData;
parentPort.on("message", async ({ id, number }) => {
  const answer = await Promise.resolve(number * 2);
  port.postMessage({ id, answer });
  Atomics.store(word, 0, 1);
  Atomics.notify(word, 0);
});
