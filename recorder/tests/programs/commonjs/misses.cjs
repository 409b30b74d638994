// Wrong: the worker looks at one word and waits on another, so main's notify may come before the wait.
const { Worker } = require("node:worker_threads");
const { join } = require("node:path");

const words = new Int32Array(new SharedArrayBuffer(8));
new Worker(join(__dirname, "worker.cjs"), { workerData: { words, waits: "once" } });
Atomics.store(words, 0, 1);
Atomics.notify(words, 1);
