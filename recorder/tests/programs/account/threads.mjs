// Main has an account; two workers order payments by messages, and the last one of each is followed by its exit.
import { once } from "node:events";
import { Worker, isMainThread, parentPort } from "node:worker_threads";

export async function run(paid) {
  if (!isMainThread) {
    for (const amount of [1, 2]) parentPort.postMessage(amount);
    return;
  }
  const account = { balance: 0 };
  const payments = [];
  const workers = [1, 2].map(() => new Worker(process.argv[1]));
  for (const worker of workers) worker.on("message", (amount) => payments.push(paid(account, amount)));
  await Promise.all(workers.map((worker) => once(worker, "exit")));
  await Promise.all(payments);
  if (account.balance !== 6) throw new Error(`the balance is ${account.balance}`);
}
