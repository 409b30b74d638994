// A worker writes pairs of equal numbers, each with a new version; main reads them, and a pair must be equal.
import { Worker, isMainThread, workerData } from "node:worker_threads";

const [VERSION, LEFT, RIGHT] = [0, 1, 2];

function write(words, versions) {
  for (let number = 1; number <= 3; number += 1) {
    const version = Atomics.load(words, VERSION);
    Atomics.store(words, VERSION, (version + 1) % versions);
    Atomics.store(words, LEFT, number);
    Atomics.store(words, RIGHT, number);
    Atomics.store(words, VERSION, (version + 2) % versions);
  }
}

function read(words) {
  for (;;) {
    const version = Atomics.load(words, VERSION);
    if (version % 2 === 1) continue;
    const pair = [Atomics.load(words, LEFT), Atomics.load(words, RIGHT)];
    if (Atomics.load(words, VERSION) === version) return pair;
  }
}

export function run({ versions }) {
  if (!isMainThread) return write(workerData, versions);
  const words = new Int32Array(new SharedArrayBuffer(12));
  new Worker(process.argv[1], { workerData: words });
  for (let time = 0; time < 2; time += 1) {
    const [left, right] = read(words);
    if (left !== right) throw new Error(`a torn pair: ${left} and ${right}`);
  }
}
