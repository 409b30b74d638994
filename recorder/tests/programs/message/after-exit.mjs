// Right: main reads what the worker wrote when the worker has exited, and the event orders the two.
import { once } from "node:events";
import { Worker } from "node:worker_threads";

const data = new Float64Array(new SharedArrayBuffer(32));
const code = `const { workerData: data } = require("node:worker_threads");
for (let at = 0; at < 4; at += 1) data[at] = at / 2;`;
const worker = new Worker(code, { eval: true, workerData: data });
const [status] = await once(worker, "exit");
if (status !== 0 || data[3] !== 1.5) throw new Error(`status ${status}, and the last number is ${data[3]}`);
