// A worker that starts another one ends behind it, and ends it when it exits itself.
import { once } from "node:events";
import { Worker } from "node:worker_threads";

const inner = `const { parentPort } = require("node:worker_threads");
parentPort.postMessage("inner");
parentPort.once("message", () => {});`;
const outer = (last) => `const { Worker, parentPort } = require("node:worker_threads");
const worker = new Worker(${JSON.stringify(inner)}, { eval: true });
worker.on("exit", (status) => parentPort.postMessage("inner exits " + status));
worker.on("message", (text) => {
  parentPort.postMessage(text);
  ${last}
});`;
for (const last of ["worker.postMessage('end');", "process.exit(3);", "worker.terminate();"]) {
  const worker = new Worker(outer(last), { eval: true });
  worker.on("message", (text) => console.log(text));
  console.log(last, await once(worker, "exit"));
}
