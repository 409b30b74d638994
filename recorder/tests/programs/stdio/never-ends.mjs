// Wrong: nobody ends the worker's standard input, so it waits for more for ever.
import { text } from "node:stream/consumers";
import { Worker } from "node:worker_threads";

const worker = new Worker(new URL("./doubles.mjs", import.meta.url), { stdin: true, stdout: true });
worker.stdin.write("1\n");
console.log(await text(worker.stdout));
