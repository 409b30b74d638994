// A notify counts a thread that sleeps and promises of waitAsync alike.
import { setTimeout as sleep } from "node:timers/promises";
import { Worker, isMainThread, workerData } from "node:worker_threads";

if (isMainThread) {
  const words = new Int32Array(new SharedArrayBuffer(16));
  const worker = new Worker(new URL(import.meta.url), { workerData: words });
  let count = 1;
  worker.on("exit", (code) => console.log("notified", count, "worker", code, Atomics.load(words, 1)));
  while (count === 1) {
    const { value } = Atomics.waitAsync(words, 0, 0);
    await sleep(20);
    count = Atomics.notify(words, 0);
    await value;
  }
} else Atomics.store(workerData, 1, Atomics.wait(workerData, 0, 0) === "ok" ? 1 : 2);
