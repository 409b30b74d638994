// A ring of slots between a worker that puts numbers and main that takes them.
import { Worker, isMainThread, workerData } from "node:worker_threads";

const [PUT, TAKEN, SLOTS, SIZE, COUNT] = [0, 1, 2, 6, 9];

function produce(words, waitsWhenFull) {
  for (let number = 0; number < COUNT; number += 1) {
    for (let taken; waitsWhenFull && number - (taken = Atomics.load(words, TAKEN)) === SIZE;) {
      Atomics.wait(words, TAKEN, taken);
    }
    Atomics.store(words, SLOTS + number % SIZE, number);
    Atomics.store(words, PUT, number + 1);
    Atomics.notify(words, PUT);
  }
}

function consume(words) {
  for (let number = 0; number < COUNT; number += 1) {
    while (Atomics.load(words, PUT) === number) Atomics.wait(words, PUT, number);
    const found = Atomics.load(words, SLOTS + number % SIZE);
    if (found !== number) throw new Error(`found ${found} in place of ${number}`);
    Atomics.store(words, TAKEN, number + 1);
    Atomics.notify(words, TAKEN);
  }
}

export function run({ waitsWhenFull }) {
  if (!isMainThread) return produce(workerData, waitsWhenFull);
  const words = new Int32Array(new SharedArrayBuffer(32));
  new Worker(process.argv[1], { workerData: words });
  return consume(words);
}
