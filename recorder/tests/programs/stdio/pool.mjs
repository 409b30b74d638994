// Right: the lines of two workers are put in the order of their numbers.
import { text } from "node:stream/consumers";
import { Worker } from "node:worker_threads";

const words = new Int32Array(new SharedArrayBuffer(8));
words[1] = 4;
const started = (name) =>
  new Worker(new URL("./reports.mjs", import.meta.url), { stdout: true, workerData: { words, name } });
const texts = await Promise.all(["a", "b"].map((name) => text(started(name).stdout)));
const numbers = texts.join("").trim().split("\n").map((line) => Number.parseInt(line, 10)).sort();
if (numbers.join() !== "0,1,2,3") throw new Error(`the numbers are ${numbers}`);
