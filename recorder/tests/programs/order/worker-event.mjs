// A thread hears of each Worker that it starts, before the Worker itself reports anything.
import { once } from "node:events";
import { Worker } from "node:worker_threads";

process.on("worker", (worker) => console.log("worker", worker.threadId, worker === first));
const first = new Worker("", { eval: true });
console.log("started");
await once(first.on("online", () => console.log("online")), "exit");
