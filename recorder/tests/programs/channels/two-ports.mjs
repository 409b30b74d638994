// Wrong: the worker takes for granted that what was posted first arrives first, though it goes through another port.
import { MessageChannel, Worker, isMainThread, parentPort, workerData } from "node:worker_threads";

if (isMainThread) {
  const { port1, port2 } = new MessageChannel();
  const options = { workerData: port2, transferList: [port2] };
  const worker = new Worker(new URL(import.meta.url), options);
  port1.postMessage({ factor: 7 });
  worker.postMessage({ number: 6 });
} else {
  let factor;
  workerData.once("message", (message) => { factor = message.factor; });
  parentPort.once("message", ({ number }) => {
    if (number * factor !== 42) throw new Error(`the factor is ${factor}`);
  });
}
