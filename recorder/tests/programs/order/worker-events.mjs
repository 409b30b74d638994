// The events of a worker that posts two messages and ends: online, messages, exit.
import { Worker } from "node:worker_threads";

const worker = new Worker(`const { parentPort } = require("node:worker_threads");
parentPort.postMessage("one");
parentPort.postMessage("two");`, { eval: true });
worker.on("online", () => console.log("online", worker.threadId));
worker.on("message", (text) => console.log("message", text));
worker.on("error", () => console.log("never"));
worker.on("exit", (status) => console.log("exit", status, worker.threadId));
console.log("main", worker.threadId);
