// Two requests, each answered by a worker of its own; the second begins when its worker is ready.
import { once } from "node:events";
import { Worker } from "node:worker_threads";

const code = `const { parentPort } = require("node:worker_threads");
parentPort.on("message", (id) => parentPort.postMessage({ id, answer: id * 10 }));
parentPort.postMessage("ready");`;

export async function run(request) {
  const workers = [1, 2].map(() => new Worker(code, { eval: true }));
  const asked = (id) => new Promise((done) => {
    workers[id - 1].on("message", (message) => { if (message.id === id) done(message.answer); });
    workers[id - 1].postMessage(id);
  });
  const first = request(1, asked);
  await once(workers[1], "message");
  const answers = await Promise.all([first, request(2, asked)]);
  for (const worker of workers) worker.unref();
  if (answers.join() !== "1 10,2 20") throw new Error(`answers ${answers}`);
}
