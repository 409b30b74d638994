// Wrong: the lines of two workers are taken as they come, as if they came in the order of their numbers.
import { once } from "node:events";
import { Worker } from "node:worker_threads";

const words = new Int32Array(new SharedArrayBuffer(8));
words[1] = 4;
let printed = "";
const ends = ["a", "b"].map((name) => {
  const worker = new Worker(new URL("./reports.mjs", import.meta.url), { stdout: true, workerData: { words, name } });
  worker.stdout.setEncoding("utf8").on("data", (part) => { printed += part; });
  return once(worker.stdout, "end");
});
await Promise.all(ends);
const numbers = printed.trim().split("\n").map((line) => Number.parseInt(line, 10));
if (numbers.join() !== "0,1,2,3") throw new Error(`the numbers came as ${numbers}`);
