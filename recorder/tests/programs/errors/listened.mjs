// Right: main listens for the worker's error, and starts it again until it has worked.
import { once } from "node:events";
import { Worker } from "node:worker_threads";

const words = new Int32Array(new SharedArrayBuffer(8));
for (let time = 1; ; time += 1) {
  const worker = new Worker(new URL("./fails.mjs", import.meta.url), { workerData: words });
  const failure = await Promise.race([once(worker, "error"), once(worker, "exit")]).then(([value]) => value);
  if (failure === 0) break;
  if (!(failure instanceof RangeError) || failure.message !== "too early") throw failure;
}
if (Atomics.load(words, 0) !== 3) throw new Error(`begun ${Atomics.load(words, 0)} times`);
