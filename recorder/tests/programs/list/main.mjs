// Main adds up lists that a worker makes: `count` numbers in all, `each` in one list.
import { Worker } from "node:worker_threads";
import { sumOf } from "./list.mjs";

export const addedUp = (count, each) => new Promise((done, fail) => {
  const worker = new Worker(new URL("./worker.mjs", import.meta.url), { workerData: { count, each } });
  let left = count;
  let sum = 0;
  worker.on("message", (list) => {
    sum += sumOf(list);
    left -= each;
    if (left <= 0) done(sum);
  });
  worker.on("error", fail);
});
