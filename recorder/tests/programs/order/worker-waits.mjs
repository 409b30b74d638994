// A Worker's messages are lost before anybody has listened to them. They wait when nobody listens any more.
import { once } from "node:events";
import { Worker } from "node:worker_threads";

const words = new Int32Array(new SharedArrayBuffer(4));
const worker = new Worker(`const { parentPort, workerData: words } = require("node:worker_threads");
parentPort.on("message", (number) => {
  parentPort.postMessage(number);
  parentPort.postMessage(-number);
  Atomics.store(words, 0, number);
  Atomics.notify(words, 0);
  if (number === 4) parentPort.close();
});`, { eval: true, workerData: words });
const turns = () => new Promise((done) => setTimeout(() => setImmediate(done), 100));

/** Sends a number, and returns when it has been answered, and answers that are delivered have been. */
async function ask(number) {
  worker.postMessage(number);
  Atomics.wait(words, 0, number - 1);
  await turns();
}

console.log(worker.eventNames());
await once(worker, "online");
await ask(1);
const show = (number) => console.log("on", number);
worker.on("message", show);
await turns();
worker.off("message", show);
await ask(2);
console.log("once", await once(worker, "message"));
await turns();
console.log("once", await once(worker, "message"));
// A listener that comes after `unref` keeps the thread alive.
worker.unref();
worker.on("message", show);
worker.postMessage(3);
await new Promise((done) => worker.on("message", (number) => { if (number === -3) done(); }));
worker.removeAllListeners("message");
worker.ref();
const exit = once(worker, "exit");
await ask(4);
console.log("exit", await exit);
worker.on("message", () => console.log("never"));
