// Main looks each second whether there was a beat within 4 s. `listen` gets the worker, and what notes a beat's time.
import { Worker } from "node:worker_threads";

export function look(listen) {
  const worker = new Worker(new URL("./worker.mjs", import.meta.url));
  let last = Date.now();
  const looks = setInterval(() => {
    const silence = Date.now() - last;
    if (silence > 4_000) throw new Error(`no beat for ${silence} ms`);
  }, 1_000);
  listen(worker, () => { last = Date.now(); });
  worker.on("message", (left) => {
    if (left === 0) clearInterval(looks);
  });
}
