// Wrong: main sleeps until the worker has answered, and the worker ends by an error.
import { Worker } from "node:worker_threads";

const words = new Int32Array(new SharedArrayBuffer(8));
new Worker(new URL("./throws.mjs", import.meta.url), { workerData: words }).on("error", () => {});
Atomics.wait(words, 0, 0);
