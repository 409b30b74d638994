// Right: two workers from texts, one CommonJS and one a data: URL, pass a number on by shared words.
import { Worker } from "node:worker_threads";

const words = new Int32Array(new SharedArrayBuffer(8));
const first = `const { workerData: words } = require("node:worker_threads");
Atomics.store(words, 0, 20);
Atomics.notify(words, 0);`;
const second = `import { parentPort, workerData as words } from "node:worker_threads";
while (Atomics.load(words, 0) === 0) Atomics.wait(words, 0, 0);
parentPort.postMessage(Atomics.load(words, 0) + 1);`;
new Worker(first, { eval: true, workerData: words });
const worker = new Worker(new URL(`data:text/javascript,${encodeURIComponent(second)}`), { workerData: words });
worker.on("message", (number) => {
  if (number !== 21) throw new Error(`the number is ${number}`);
});
