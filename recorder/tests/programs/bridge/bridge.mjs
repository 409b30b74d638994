// Main asks a worker for the doubles of six numbers, and sleeps until it has answered each. `wait` is how it sleeps;
// `reads` is how often the worker reads.
import { MessageChannel, Worker, receiveMessageOnPort } from "node:worker_threads";

export function askAll({ wait, reads }) {
  const { port1, port2 } = new MessageChannel();
  const word = new Int32Array(new SharedArrayBuffer(4));
  const options = { workerData: { word, port: port2, reads }, transferList: [port2] };
  const worker = new Worker(new URL("./worker.mjs", import.meta.url), options);
  worker.unref();
  for (let number = 1; number <= 6; number += 1) {
    worker.postMessage(number);
    wait(word);
    const received = receiveMessageOnPort(port1);
    if (received === undefined) throw new Error("woken without an answer");
    if (received.message !== number * 2) throw new Error(`the double of ${number} is ${received.message}`);
  }
}
