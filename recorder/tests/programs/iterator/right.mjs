// Right: main iterates over the worker's messages until the last one.
import { on } from "node:events";
import { Worker } from "node:worker_threads";

const code = `const { parentPort } = require("node:worker_threads");
for (let number = 1; number <= 4; number += 1) parentPort.postMessage(number);`;
const worker = new Worker(code, { eval: true });
let sum = 0;
for await (const [number] of on(worker, "message")) {
  sum += number;
  if (number === 4) break;
}
if (sum !== 10) throw new Error(`the sum is ${sum}`);
