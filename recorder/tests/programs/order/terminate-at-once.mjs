// A worker that is terminated in the statement after its start.
import { Worker } from "node:worker_threads";

const worker = new Worker("setInterval(() => {}, 1000)", { eval: true });
worker.on("online", () => console.log("online"));
worker.on("exit", (status) => console.log("exit", status));
const terminated = worker.terminate();
console.log("terminated", await terminated);
console.log("again", await worker.terminate());
worker.postMessage("nobody gets this");
