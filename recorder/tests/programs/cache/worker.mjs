// It counts how often it is asked.
import { parentPort } from "node:worker_threads";

let asked = 0;
parentPort.on("message", (key) => {
  asked += 1;
  parentPort.postMessage({ key, asked });
});
