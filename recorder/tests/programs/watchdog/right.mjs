// Right: an answer may take 500 ms, and takes no time.
import { Worker } from "node:worker_threads";

const worker = new Worker(new URL("./worker.mjs", import.meta.url));
const late = setTimeout(() => {
  throw new Error("no answer in 500 ms");
}, 500);
worker.on("message", (answer) => {
  clearTimeout(late);
  if (answer !== 8) throw new Error(`the answer is ${answer}`);
  worker.unref();
});
worker.postMessage(4);
