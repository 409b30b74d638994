// Right: the worker answers by a timer, and main has a time limit for each wait, after which it simply waits again.
import { MessageChannel, Worker, receiveMessageOnPort } from "node:worker_threads";

const { port1, port2 } = new MessageChannel();
const word = new Int32Array(new SharedArrayBuffer(4));
const options = { workerData: { word, port: port2 }, transferList: [port2] };
const worker = new Worker(new URL("./timer-worker.mjs", import.meta.url), options);
function call(text) {
  worker.postMessage(text);
  for (;;) {
    Atomics.wait(word, 0, 0, 50);
    Atomics.store(word, 0, 0);
    const received = receiveMessageOnPort(port1);
    if (received !== undefined) return received.message;
  }
}
for (const text of ["a", "b"]) {
  const answer = call(text);
  if (answer !== `${text}!`) throw new Error(`${text} is answered by ${answer}`);
}
worker.unref();
