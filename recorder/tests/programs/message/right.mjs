// Right: ordinary data goes to the worker and back, and messages alone put the accesses in order.
import { once } from "node:events";
import { Worker } from "node:worker_threads";

const data = new Int32Array(new SharedArrayBuffer(16));
const worker = new Worker(new URL("./worker.mjs", import.meta.url), { workerData: data });
for (let round = 1; round <= 3; round += 1) {
  data[0] = round;
  const answered = once(worker, "message");
  worker.postMessage("square it");
  await answered;
  if (data[1] !== round * round) throw new Error(`the square of ${round} is ${data[1]}`);
}
worker.postMessage("end");
