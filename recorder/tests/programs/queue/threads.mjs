// Two threads put two pieces each, two others take two each, and the sum says whether all have come through.
import { once } from "node:events";
import { Worker, isMainThread, threadId, workerData } from "node:worker_threads";
import { Queue } from "./queue.mjs";

export async function work(options) {
  if (!isMainThread) {
    const queue = new Queue(workerData.words, options);
    for (let time = 0; time < 2; time += 1) {
      if (workerData.puts) queue.put(1);
      else Atomics.add(workerData.words, 3, queue.take());
    }
    return;
  }
  const words = new Int32Array(new SharedArrayBuffer(16));
  const started = (puts) => new Worker(process.argv[1], { workerData: { words, puts } });
  const workers = [true, false, true, false].map(started);
  await Promise.all(workers.map((worker) => once(worker, "exit")));
  if (words[3] !== 4) throw new Error(`thread ${threadId} counts ${words[3]} pieces`);
}
