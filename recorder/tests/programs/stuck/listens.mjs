// It says that it is ready, and listens until main sends a message.
import { parentPort } from "node:worker_threads";

parentPort.on("message", () => parentPort.close());
parentPort.postMessage("ready");
