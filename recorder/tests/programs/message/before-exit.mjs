// Wrong: main takes "online" for the end of the worker's work.
import { once } from "node:events";
import { Worker } from "node:worker_threads";

const data = new Float64Array(new SharedArrayBuffer(32));
const worker = new Worker(new URL("./fills.mjs", import.meta.url), { workerData: data });
await once(worker, "online");
const last = data[3];
if (last !== 1.5) throw new Error(`the last number is ${last}`);
