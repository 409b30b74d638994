// Wrong: if the right worker is ready first main ends that one twice, and the left one listens for ever.
import { Worker } from "node:worker_threads";

const workers = ["left", "right"].map((name) => new Worker(new URL("./listens.mjs", import.meta.url), { name }));
let chosen;
for (const worker of workers) {
  worker.once("message", () => {
    chosen ??= worker;
    if (chosen === workers[0]) worker.postMessage("end");
    else chosen.postMessage("end");
  });
}
