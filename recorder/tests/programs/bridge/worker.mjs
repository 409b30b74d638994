// It reads a file some times, doubles the number, stores that there is an answer, and notifies.
import { readFile } from "node:fs/promises";
import { fileURLToPath } from "node:url";
import { parentPort, workerData } from "node:worker_threads";

const { word, port, reads } = workerData;
const file = fileURLToPath(import.meta.url);
parentPort.on("message", async (number) => {
  for (let time = 0; time < reads; time += 1) await readFile(file);
  port.postMessage(number * 2);
  Atomics.store(word, 0, 1);
  Atomics.notify(word, 0);
});
