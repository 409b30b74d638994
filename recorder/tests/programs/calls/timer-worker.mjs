// It answers each message 10 ms later.
import { setTimeout as sleep } from "node:timers/promises";
import { parentPort, workerData } from "node:worker_threads";

const { word, port } = workerData;
parentPort.on("message", async (text) => {
  await sleep(10);
  port.postMessage(`${text}!`);
  Atomics.store(word, 0, 1);
  Atomics.notify(word, 0);
});
