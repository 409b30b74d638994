// It posts two messages, and ends when it gets one.
import { parentPort } from "node:worker_threads";

parentPort.postMessage("a");
parentPort.postMessage("b");
parentPort.once("message", () => {});
