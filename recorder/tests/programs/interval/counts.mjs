// Right: main asks after it has counted a thousand turns of an interval, in a variable that nobody else sees.
import { once } from "node:events";
import { Worker } from "node:worker_threads";

let turns = 0;
await new Promise((resolve) => {
  const counting = setInterval(() => {
    turns += 1;
    if (turns < 1_000) return;
    clearInterval(counting);
    resolve();
  }, 1);
});
const words = new Int32Array(new SharedArrayBuffer(8));
const worker = new Worker(new URL("./worker.mjs", import.meta.url), { workerData: words });
await once(worker, "exit");
if (words[0] !== 1) throw new Error("nothing was stored");
