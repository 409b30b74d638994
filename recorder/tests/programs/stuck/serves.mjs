// It adds 1 to each number.
import { parentPort } from "node:worker_threads";

parentPort.on("message", (number) => parentPort.postMessage(number + 1));
