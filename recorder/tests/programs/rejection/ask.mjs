// Each question goes to a worker of its own.
import { Worker } from "node:worker_threads";

export function ask(text) {
  return new Promise((resolve, reject) => {
    const worker = new Worker(new URL("./worker.mjs", import.meta.url), { workerData: text });
    worker.on("message", ({ answer, refused }) => {
      if (refused === undefined) resolve(answer);
      else reject(new Error(refused));
    });
  });
}
