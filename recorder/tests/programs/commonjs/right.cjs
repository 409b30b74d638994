// Right: main and worker are CommonJS; the worker waits for its turn in a loop.
const { Worker } = require("node:worker_threads");
const { join } = require("node:path");

if (require.main !== module) throw new Error("this isn't the main module");
const words = new Int32Array(new SharedArrayBuffer(8));
const worker = new Worker(join(__dirname, "worker.cjs"), { workerData: { words, waits: "in a loop" }, argv: ["one"] });
worker.on("message", ({ file, given }) => {
  if (file !== "worker.cjs" || given !== "one") throw new Error(`${file} is given ${given}`);
});
Atomics.store(words, 0, 1);
Atomics.notify(words, 0);
