// It sets the word and notifies, and only then posts the answer.
import { parentPort, workerData } from "node:worker_threads";

const { word, port } = workerData;
parentPort.on("message", ({ id, number }) => {
  Atomics.store(word, 0, 1);
  Atomics.notify(word, 0);
  port.postMessage({ id, answer: number * 2 });
});
