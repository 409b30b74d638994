// It refuses the question that is wrong.
import { parentPort, workerData } from "node:worker_threads";

if (workerData === "wrong") parentPort.postMessage({ refused: "wrong" });
else parentPort.postMessage({ answer: `${workerData}!` });
