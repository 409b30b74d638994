// Right: two workers get numbers by their standard input, and all lines of their output are read to the end.
import { text } from "node:stream/consumers";
import { Worker } from "node:worker_threads";

async function doubled(numbers) {
  const worker = new Worker(new URL("./doubles.mjs", import.meta.url), { stdin: true, stdout: true });
  for (const number of numbers) worker.stdin.write(`${number}\n`);
  worker.stdin.end();
  return (await text(worker.stdout)).trim().split("\n").map(Number);
}
const all = await Promise.all([doubled([1, 2, 3]), doubled([4, 5])]);
if (JSON.stringify(all) !== "[[2,4,6],[8,10]]") throw new Error(`doubled to ${JSON.stringify(all)}`);
