// Wrong: both waiters are woken for one piece, and the second doesn't look again whether it is still there.
import { Worker } from "node:worker_threads";

const words = new Int32Array(new SharedArrayBuffer(8));
async function take() {
  if (Atomics.load(words, 0) === 0) await Atomics.waitAsync(words, 0, 0).value;
  if (Atomics.sub(words, 0, 1) < 1) throw new Error("took a piece that isn't there");
}
new Worker(new URL("./bakes.mjs", import.meta.url), { workerData: words });
await Promise.all([take(), take()]);
