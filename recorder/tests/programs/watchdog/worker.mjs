// It doubles each number.
import { parentPort } from "node:worker_threads";

parentPort.on("message", (number) => parentPort.postMessage(number * 2));
