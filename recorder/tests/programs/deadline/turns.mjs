// Wrong: main waits eight turns of its loop and takes for granted that the worker has answered by then.
import { Worker } from "node:worker_threads";

const code = `const { parentPort } = require("node:worker_threads");
parentPort.postMessage("done");`;
const worker = new Worker(code, { eval: true });
let answer;
worker.once("message", (message) => { answer = message; });
await new Promise((done) => { worker.once("online", done); });
for (let turn = 0; turn < 8; turn += 1) await new Promise((done) => { setImmediate(done); });
worker.unref();
if (answer !== "done") throw new Error("no answer after eight turns");
