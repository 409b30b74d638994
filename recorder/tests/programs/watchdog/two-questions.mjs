// Wrong: both questions keep their timers in one variable, so that of the first one is never cleared.
import { once } from "node:events";
import { Worker } from "node:worker_threads";

let timer;
async function ask(number) {
  const worker = new Worker(new URL("./worker.mjs", import.meta.url));
  worker.postMessage(number);
  timer = setTimeout(() => {
    throw new Error(`no answer to ${number} in 500 ms`);
  }, 500);
  await once(worker, "message");
  clearTimeout(timer);
  await worker.terminate();
}
await Promise.all([ask(3), ask(4)]);
