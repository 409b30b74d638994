// Right: each worker starts one more until there are three, and each waits for its own child's sum.
import { once } from "node:events";
import { Worker, isMainThread, parentPort, workerData } from "node:worker_threads";

const depth = isMainThread ? 3 : workerData;
let sum = depth;
if (depth > 0) {
  const child = new Worker(new URL(import.meta.url), { workerData: depth - 1 });
  const [below] = await once(child, "message");
  sum += below;
}
if (!isMainThread) parentPort.postMessage(sum);
else if (sum !== 6) throw new Error(`the sum is ${sum}`);
