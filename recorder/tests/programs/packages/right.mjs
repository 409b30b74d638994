// Right: a package of node_modules is imported here and required in the worker, and JSON is imported.
import { once } from "node:events";
import { Worker } from "node:worker_threads";
import { form, Gate } from "small-gate";
import { keys } from "small-gate/keys";
import names from "./names.json" with { type: "json" };

if (form !== "module" || keys.open !== 1 || names.length !== 2) throw new Error(`${form}, ${keys.open}, ${names}`);
const gate = new Gate(new SharedArrayBuffer(4));
const worker = new Worker(new URL("./worker.cjs", import.meta.url), { workerData: gate.words.buffer });
gate.wait();
const [{ form: other }] = await once(worker, "message");
if (other !== "commonjs") throw new Error(`the worker has the ${other}`);
