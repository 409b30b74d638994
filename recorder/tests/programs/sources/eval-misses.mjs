// Wrong: the worker from a text notifies once, and main may begin to wait after that.
import { Worker } from "node:worker_threads";

const words = new Int32Array(new SharedArrayBuffer(4));
const code = `const { workerData: words } = require("node:worker_threads");
Atomics.notify(words, 0);`;
new Worker(code, { eval: true, workerData: words });
Atomics.wait(words, 0, 0);
