// It doubles each number of its input, a line each, and says how many there were.
import { createInterface } from "node:readline";
import { parentPort } from "node:worker_threads";

let count = 0;
for await (const line of createInterface({ input: process.stdin })) {
  console.log(Number(line) * 2);
  count += 1;
}
parentPort.postMessage(count);
