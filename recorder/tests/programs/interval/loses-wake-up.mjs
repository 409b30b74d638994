// Wrong: the worker may store and notify before main waits. An interval hides that nothing else goes on.
import { Worker } from "node:worker_threads";

const words = new Int32Array(new SharedArrayBuffer(8));
new Worker(new URL("./worker.mjs", import.meta.url), { workerData: words });
const beats = setInterval(() => {}, 1_000);
if (Atomics.load(words, 0) === 0) await Atomics.waitAsync(words, 1, 0).value;
clearInterval(beats);
