// It squares each number by a timer.
import { setTimeout as sleep } from "node:timers/promises";
import { parentPort } from "node:worker_threads";

parentPort.on("message", async (number) => {
  await sleep(number);
  parentPort.postMessage(number * number);
});
