// Main starts workers that all run the program's file. Each counts all that it does in a word of its own, of which main
// shows the sum at the end. So there are many calls between two that matter.
import { once } from "node:events";
import { Worker, isMainThread, workerData } from "node:worker_threads";

const STEPS = 30;

/** Runs a part of the program in each of so many workers; of main, what comes after. */
export async function run({ threads, words: count, part, after = () => {} }) {
  if (isMainThread) {
    const words = new Int32Array(new SharedArrayBuffer(count * 4));
    const done = new Int32Array(new SharedArrayBuffer(threads * 4));
    const workers = Array.from({ length: threads }, (_, number) => {
      return new Worker(process.argv[1], { workerData: { words, done, number } });
    });
    await Promise.all(workers.map((worker) => once(worker, "exit")));
    after(words, done.reduce((sum, _, number) => sum + Atomics.load(done, number), 0));
    return;
  }
  const { words, done, number } = workerData;
  const work = () => {
    for (let step = 0; step < STEPS; step += 1) Atomics.add(done, number, 1);
  };
  part({ words, number, work });
}
