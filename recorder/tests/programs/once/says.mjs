// It posts its text.
import { parentPort, workerData } from "node:worker_threads";

parentPort.postMessage(workerData);
