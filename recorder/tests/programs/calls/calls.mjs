// Synchronous calls of an asynchronous worker that doubles numbers: main posts a number, sleeps, and takes the answer
// from a port.
import { MessageChannel, Worker, receiveMessageOnPort } from "node:worker_threads";

export function double({ worker, looksAgain }, ...numbers) {
  const { port1, port2 } = new MessageChannel();
  const word = new Int32Array(new SharedArrayBuffer(4));
  const options = { workerData: { word, port: port2 }, transferList: [port2] };
  const thread = new Worker(new URL(worker, import.meta.url), options);
  let id = 0;
  function call(number) {
    id += 1;
    thread.postMessage({ id, number });
    for (;;) {
      Atomics.wait(word, 0, 0);
      Atomics.store(word, 0, 0);
      const received = receiveMessageOnPort(port1);
      if (received === undefined && looksAgain) continue;
      if (received === undefined) throw new Error(`call ${id}: woken without an answer`);
      if (received.message.id !== id) throw new Error(`call ${id} has the answer of ${received.message.id}`);
      return received.message.answer;
    }
  }
  for (const number of numbers) {
    const answer = call(number);
    if (answer !== number * 2) throw new Error(`the double of ${number} is ${answer}`);
  }
  thread.unref();
}
