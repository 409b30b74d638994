// It writes a byte, and then sends a message that nobody receives.
import { parentPort, workerData } from "node:worker_threads";

const { byte, port } = workerData;
byte[0] = 1;
port.postMessage("written");
parentPort.on("message", () => {});
