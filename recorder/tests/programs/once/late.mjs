// Wrong: main listens for the second worker's message when it has the first one's, and may have missed it by then.
import { once } from "node:events";
import { Worker } from "node:worker_threads";

const workers = ["a", "b"].map((text) => new Worker(new URL("./says.mjs", import.meta.url), { workerData: text }));
const [first] = await once(workers[0], "message");
const [second] = await once(workers[1], "message");
if (first + second !== "ab") throw new Error(`messages ${first} and ${second}`);
