// It sends back what it gets.
import { parentPort } from "node:worker_threads";

parentPort.on("message", (number) => parentPort.postMessage(number));
