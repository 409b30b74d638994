// Two workers paint an image of one mebibyte, each with a colour of its own; main looks at the rows where they meet.
import { Worker, isMainThread, workerData } from "node:worker_threads";

const [WIDTH, HEIGHT] = [1_024, 256];

function paint({ pixels, done, colour, from, to }) {
  for (let row = from; row < to; row += 1) pixels.fill(colour, row * WIDTH, (row + 1) * WIDTH);
  Atomics.add(done, 0, 1);
  Atomics.notify(done, 0);
}

export function run(overlap) {
  if (!isMainThread) return paint(workerData);
  const pixels = new Uint32Array(new SharedArrayBuffer(4 * WIDTH * HEIGHT));
  const done = new Int32Array(new SharedArrayBuffer(4));
  const half = HEIGHT / 2;
  for (const [colour, from, to] of [[1, 0, half + overlap], [2, half, HEIGHT]]) {
    new Worker(process.argv[1], { workerData: { pixels, done, colour, from, to } });
  }
  for (let count = 0; count < 2; count = Atomics.load(done, 0)) Atomics.wait(done, 0, count);
  const [last, first] = [pixels[half * WIDTH - 1], pixels[half * WIDTH]];
  if (last !== 1 || first !== 2) throw new Error(`the colours are ${last} and ${first}`);
}
