// Wrong: main broadcasts when the first worker listens, and the other one may wait for ever.
import { once } from "node:events";
import { BroadcastChannel, Worker } from "node:worker_threads";

const workers = [1, 2].map(() => new Worker(new URL("./worker.mjs", import.meta.url)));
await Promise.race(workers.map((worker) => once(worker, "message")));
const news = new BroadcastChannel("news");
news.postMessage(42);
news.close();
