// Right: main waits at the word that is stored, while an interval goes on.
import { Worker } from "node:worker_threads";

const words = new Int32Array(new SharedArrayBuffer(8));
new Worker(new URL("./worker.mjs", import.meta.url), { workerData: words });
const beats = setInterval(() => {}, 1_000);
await Atomics.waitAsync(words, 0, 0).value;
clearInterval(beats);
