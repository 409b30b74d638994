// Main blocks until the worker has posted, and the messages that wait by then come one by one.
import { Worker } from "node:worker_threads";

const words = new Int32Array(new SharedArrayBuffer(4));
const worker = new Worker(`const { parentPort, workerData: words } = require("node:worker_threads");
for (const number of [1, 2, 3]) parentPort.postMessage(number);
Atomics.store(words, 0, 1);
Atomics.notify(words, 0);
parentPort.once("message", () => {});`, { eval: true, workerData: words });
process.nextTick(() => console.log("tick"));
worker.on("message", (number) => {
  console.log("message", number);
  if (number === 3) worker.postMessage("end");
  Promise.resolve().then(() => console.log("promise", number));
});
worker.on("exit", (status) => console.log("exit", status));
console.log(Atomics.wait(words, 0, 0) === "timed-out" ? "timed out" : "woken", Atomics.load(words, 0));
