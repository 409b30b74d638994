// Right: a waiter that is woken takes a piece only if there is one, and waits again otherwise.
import { Worker } from "node:worker_threads";

const words = new Int32Array(new SharedArrayBuffer(8));
async function take() {
  for (;;) {
    const there = Atomics.load(words, 0);
    if (there > 0 && Atomics.compareExchange(words, 0, there, there - 1) === there) return;
    if (there === 0) await Atomics.waitAsync(words, 0, 0).value;
  }
}
new Worker(new URL("./bakes.mjs", import.meta.url), { workerData: words });
await Promise.all([take(), take()]);
if (Atomics.load(words, 0) !== 0) throw new Error("a piece is left");
