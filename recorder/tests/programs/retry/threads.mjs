// Main pays by message, and asks again when no answer has come after twelve turns of its loop.
import { Worker, isMainThread, parentPort } from "node:worker_threads";

const TURNS = 12;

function serve(paid) {
  const account = { balance: 0, seen: new Set() };
  parentPort.on("message", (payment) => {
    paid(account, payment);
    parentPort.postMessage({ id: payment.id, balance: account.balance });
  });
}

export async function run(paid) {
  if (!isMainThread) return serve(paid);
  const worker = new Worker(process.argv[1]);
  const answers = new Map();
  worker.on("message", ({ id, balance }) => answers.set(id, balance));
  await new Promise((done) => { worker.once("online", done); });
  for (const id of [1, 2]) {
    for (let turn = 0; !answers.has(id); turn += 1) {
      if (turn % TURNS === 0) worker.postMessage({ id, amount: 10 });
      await new Promise((done) => { setImmediate(done); });
    }
  }
  const balance = answers.get(2);
  worker.unref();
  if (balance !== 20) throw new Error(`the balance is ${balance}`);
}
