// Right: main broadcasts when both workers have said that they listen.
import { once } from "node:events";
import { BroadcastChannel, Worker } from "node:worker_threads";

const workers = [1, 2].map(() => new Worker(new URL("./worker.mjs", import.meta.url)));
await Promise.all(workers.map((worker) => once(worker, "message")));
const news = new BroadcastChannel("news");
news.postMessage(42);
news.close();
const heard = await Promise.all(workers.map((worker) => once(worker, "message")));
if (heard.join() !== "42,42") throw new Error(`heard: ${heard}`);
