// A worker with a listener for uncaught exceptions goes on, and one that main ends by a message exits with 0.
import { Worker } from "node:worker_threads";

const worker = new Worker(`const { parentPort } = require("node:worker_threads");
process.on("uncaughtException", ({ message }, origin) => parentPort.postMessage(message + " " + origin));
process.on("exit", (status) => parentPort.postMessage("exit " + status));
parentPort.on("message", (text) => {
  if (text === "end") parentPort.close();
  else throw new Error(text);
});`, { eval: true });
let messages = 0;
worker.on("message", (text) => {
  messages += 1;
  console.log(text);
  if (messages === 2) worker.postMessage("end");
});
worker.on("exit", (status) => console.log("exited", status));
worker.postMessage("one");
worker.postMessage("two");
