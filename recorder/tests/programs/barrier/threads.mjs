// Three threads of one program that meet at a barrier, and each time count what they have done.
import { once } from "node:events";
import { Worker, isMainThread, workerData } from "node:worker_threads";

const MEMBERS = 3;

export async function meet(times, arrive) {
  const words = isMainThread ? new Int32Array(new SharedArrayBuffer(16)) : workerData;
  const others = [];
  if (isMainThread) {
    for (let member = 1; member < MEMBERS; member += 1) others.push(new Worker(process.argv[1], { workerData: words }));
  }
  for (let time = 1; time <= times; time += 1) {
    Atomics.add(words, 2, 1);
    arrive(words, MEMBERS);
    const done = Atomics.load(words, 2);
    if (done < time * MEMBERS) throw new Error(`round ${time} began when ${done} were done`);
  }
  await Promise.all(others.map((other) => once(other, "exit")));
}
