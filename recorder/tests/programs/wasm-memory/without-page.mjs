// Right: the worker gets a memory without a page, and makes it longer.
import { Worker, isMainThread, workerData } from "node:worker_threads";

if (isMainThread) {
  const memory = new WebAssembly.Memory({ initial: 0, maximum: 1, shared: true });
  new Worker(new URL(import.meta.url), { workerData: memory });
} else if (workerData.grow(1) !== 0) throw new Error("it had a page");
