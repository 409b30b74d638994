// Right: main listens for both messages before it awaits the first one.
import { once } from "node:events";
import { Worker } from "node:worker_threads";

const workers = ["a", "b"].map((text) => new Worker(new URL("./says.mjs", import.meta.url), { workerData: text }));
const [[first], [second]] = await Promise.all(workers.map((worker) => once(worker, "message")));
if (first + second !== "ab") throw new Error(`messages ${first} and ${second}`);
