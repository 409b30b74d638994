// Right: modules are loaded by import() in main and in the worker, and their top-level awaits are waited for.
import { Worker, isMainThread, parentPort } from "node:worker_threads";

const { default: table } = await import("./later.mjs");
if (isMainThread) {
  const worker = new Worker(new URL(import.meta.url));
  worker.on("message", (sum) => {
    if (sum !== table.reduce((left, right) => left + right)) throw new Error(`the sum is ${sum}`);
  });
} else {
  parentPort.postMessage(table.reduce((left, right) => left + right));
}
