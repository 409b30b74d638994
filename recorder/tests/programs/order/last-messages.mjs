// What a worker posts just before it exits arrives before its exit event.
import { Worker } from "node:worker_threads";

const worker = new Worker(`const { parentPort } = require("node:worker_threads");
process.on("exit", (status) => parentPort.postMessage("in exit " + status));
for (let number = 1; number <= 3; number += 1) parentPort.postMessage(number);
process.exit(5);`, { eval: true });
worker.on("message", (message) => console.log("message", message));
worker.on("exit", (status) => console.log("exit", status));
