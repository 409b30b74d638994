// Wrong: main adds when one of two answers has come. What it throws is printed, and it exits.
import { once } from "node:events";
import { Worker } from "node:worker_threads";

async function main() {
  let sum = 0;
  const workers = [1, 2].map((number) => {
    const code = `require("node:worker_threads").parentPort.postMessage(${number})`;
    return new Worker(code, { eval: true }).on("message", (answer) => {
      sum += answer;
    });
  });
  await Promise.race(workers.map((worker) => once(worker, "exit")));
  if (sum !== 3) throw new Error(`the sum is ${sum}`);
}
main().catch((problem) => {
  console.error(problem);
  process.exit(1);
});
