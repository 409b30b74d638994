// It posts five numbers and null as the end.
import { parentPort } from "node:worker_threads";

for (const number of [1, 2, 3, 4, 5, null]) {
  parentPort.postMessage(number);
  await null;
}
