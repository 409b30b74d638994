// Wrong: when the time is up main takes the answer that comes too late for the answer of its next call.
import { MessageChannel, Worker, receiveMessageOnPort } from "node:worker_threads";

const { port1, port2 } = new MessageChannel();
const word = new Int32Array(new SharedArrayBuffer(4));
const options = { workerData: { word, port: port2 }, transferList: [port2] };
const worker = new Worker(new URL("./timer-worker.mjs", import.meta.url), options);
function call(text) {
  Atomics.store(word, 0, 0);
  worker.postMessage(text);
  Atomics.wait(word, 0, 0, 30);
  return receiveMessageOnPort(port1)?.message ?? "none in time";
}
for (const text of ["a", "b", "c"]) {
  const answer = call(text);
  if (answer !== `${text}!` && answer !== "none in time") throw new Error(`${text} is answered by ${answer}`);
}
worker.unref();
