// Wrong: main terminates the worker after its first answer and waits for the second one.
import { once } from "node:events";
import { Worker } from "node:worker_threads";

const code = `const { parentPort } = require("node:worker_threads");
parentPort.postMessage(1);
setImmediate(() => parentPort.postMessage(2));`;
const worker = new Worker(code, { eval: true });
const answers = [];
worker.on("message", (answer) => answers.push(answer));
await once(worker, "message");
await worker.terminate();
if (answers.length !== 2) throw new Error(`${answers.length} answers have come`);
