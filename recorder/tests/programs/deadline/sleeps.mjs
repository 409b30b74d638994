// Wrong: main sleeps 50 ms and takes for granted that the worker has done its 10 ms of work by then.
import { setTimeout as sleep } from "node:timers/promises";
import { Worker } from "node:worker_threads";

const code = `const { parentPort } = require("node:worker_threads");
setTimeout(() => parentPort.postMessage("done"), 10);`;
const worker = new Worker(code, { eval: true });
let answer;
worker.once("message", (message) => { answer = message; });
await sleep(50);
worker.unref();
if (answer !== "done") throw new Error("the worker hasn't answered after 50 ms");
