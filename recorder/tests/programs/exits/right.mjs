// Right: the worker exits with the status 3, which main has sent it, and main expects that.
import { once } from "node:events";
import { Worker } from "node:worker_threads";

const code = `const { parentPort } = require("node:worker_threads");
parentPort.on("message", (status) => process.exit(status));
parentPort.postMessage("ready");`;
const worker = new Worker(code, { eval: true });
await once(worker, "message");
worker.postMessage(3);
const [status] = await once(worker, "exit");
process.exitCode = status === 3 ? 0 : 1;
