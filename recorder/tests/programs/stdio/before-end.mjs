// Wrong: the worker's message says that it is done, but what it has printed may come later, by the other way.
import { once } from "node:events";
import { Worker } from "node:worker_threads";

const worker = new Worker(new URL("./doubles.mjs", import.meta.url), { stdin: true, stdout: true });
let printed = "";
worker.stdout.on("data", (part) => { printed += part; });
worker.stdin.end("1\n2\n3\n");
const [count] = await once(worker, "message");
const lines = printed.split("\n").length - 1;
if (lines !== count) throw new Error(`${lines} lines for ${count} numbers`);
