// Right: main and a worker add properties to Object.prototype, named as members of descriptors and traps of proxies.
import { BroadcastChannel, Worker } from "node:worker_threads";

// Later versions of node load this class when it is first needed, and fail if objects inherit such a setter by then.
void MessageEvent;
Object.prototype.get = function get() { return this; };
Object.prototype.set = 5;
Object.prototype.value = false;
Object.prototype.writable = false;
const words = new Int32Array(new SharedArrayBuffer(4));
const code = `const { BroadcastChannel, parentPort, workerData } = require("node:worker_threads");
Object.prototype.get = 4;
Object.prototype.set = () => {};
workerData[0] = 3;
parentPort.postMessage(process.env.INHERITED);
parentPort.once("message", () => {
  const news = new BroadcastChannel("news");
  news.postMessage(workerData[0]);
  news.close();
});`;
process.env.INHERITED = 7;
const news = new BroadcastChannel("news");
const worker = new Worker(code, { eval: true, workerData: words });
worker.on("message", (text) => {
  if (text !== "7" || words[0] !== 3) throw new Error(`came: ${text}`);
  worker.postMessage("");
});
news.onmessage = ({ data }) => {
  if (data !== 3) throw new Error(`the news: ${data}`);
  news.close();
};
