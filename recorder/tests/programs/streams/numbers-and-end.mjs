// It posts three numbers to its parent, and the end to another port.
import { parentPort, workerData as port } from "node:worker_threads";

for (const number of [1, 2, 3]) parentPort.postMessage(number);
port.postMessage("end");
