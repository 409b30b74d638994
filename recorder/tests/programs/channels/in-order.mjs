// Right: two ports may deliver in any order, and the worker waits for both.
import { once } from "node:events";
import { MessageChannel, Worker, isMainThread, parentPort, workerData } from "node:worker_threads";

if (isMainThread) {
  const { port1, port2 } = new MessageChannel();
  const worker = new Worker(new URL(import.meta.url), { workerData: port2, transferList: [port2] });
  port1.postMessage({ factor: 7 });
  worker.postMessage({ number: 6 });
} else {
  const [[{ factor }], [{ number }]] = await Promise.all([once(workerData, "message"), once(parentPort, "message")]);
  if (number * factor !== 42) throw new Error(`${number} times ${factor}`);
  workerData.close();
}
