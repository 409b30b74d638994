// A worker that is terminated when it has posted a message: asleep, and idle.
import { once } from "node:events";
import { Worker } from "node:worker_threads";

const ends = [
  "Atomics.wait(new Int32Array(new SharedArrayBuffer(4)), 0, 0);", "parentPort.on('message', () => {});",
];
for (const end of ends) {
  const code = `const { parentPort } = require("node:worker_threads");
process.on("exit", () => parentPort.postMessage("never"));
parentPort.postMessage("begun");
${end}`;
  const worker = new Worker(code, { eval: true });
  worker.on("exit", (status) => console.log("exit", status));
  worker.on("message", (text) => console.log("message", text));
  await once(worker, "message");
  console.log("terminated", await worker.terminate());
}
