// A worker writes pairs of equal numbers into four buffers in turn, and main reads the newest pair.
import { Worker, isMainThread, workerData } from "node:worker_threads";

const [NEWEST, IN_USE, FIRST, BUFFERS, PAIRS] = [0, 1, 2, 4, 7];

function write(words, mayWrite) {
  for (let number = 1; number <= PAIRS; number += 1) {
    const at = number % BUFFERS;
    if (!mayWrite(words, at)) continue;
    Atomics.store(words, FIRST + 2 * at, number);
    Atomics.store(words, FIRST + 2 * at + 1, number);
    Atomics.store(words, NEWEST, at);
  }
}

export function run(mayWrite) {
  if (!isMainThread) return write(workerData, mayWrite);
  const words = new Int32Array(new SharedArrayBuffer(40));
  new Worker(process.argv[1], { workerData: words });
  for (let time = 0; time < 3; time += 1) {
    const at = Atomics.load(words, NEWEST);
    Atomics.store(words, IN_USE, at);
    if (Atomics.load(words, NEWEST) !== at) continue;
    const pair = [Atomics.load(words, FIRST + 2 * at), Atomics.load(words, FIRST + 2 * at + 1)];
    if (pair[0] !== pair[1]) throw new Error(`a torn pair: ${pair.join(" and ")}`);
  }
}
