// Wrong: a worker's promise rejects if another worker was first, and nobody listens for "error".
import { Worker, isMainThread, workerData } from "node:worker_threads";

async function takeTicket(words) {
  await null;
  if (Atomics.add(words, 0, 1) > 0) throw new RangeError("no ticket is left");
}

if (isMainThread) {
  const words = new Int32Array(new SharedArrayBuffer(4));
  const worker = new Worker(new URL(import.meta.url), { workerData: words });
  worker.on("online", () => {
    setImmediate(() => Atomics.compareExchange(words, 0, 0, 1));
  });
} else {
  takeTicket(workerData);
}
