// A worker that throws: its error, for errors of classes and for values that are none, and exit code 1.
import { once } from "node:events";
import { Worker } from "node:worker_threads";

const thrown = ["new RangeError('too far')", "Object.assign(new Error('e'), { code: 'OWN' })", "{ a: [1n] }", "null"];
for (const value of thrown) {
  const worker = new Worker(`const { parentPort } = require("node:worker_threads");
parentPort.once("message", () => { throw ${value}; });
parentPort.postMessage("before");`, { eval: true });
  worker.on("message", (text) => {
    console.log("message", text);
    worker.postMessage("go on");
  });
  const exited = new Promise((done) => { worker.on("exit", done); });
  worker.on("error", (error) => console.log("error", error?.name, error?.message, error?.code, typeof error));
  await once(worker, "online");
  console.log("online");
  console.log("exit", await exited);
}
