// Wrong: the first worker exits with 5 when the second one was faster, and main takes that for its own exit code.
import { Worker, isMainThread, workerData } from "node:worker_threads";

if (isMainThread) {
  const words = new Int32Array(new SharedArrayBuffer(8));
  for (const number of [1, 2]) {
    const worker = new Worker(new URL(import.meta.url), { workerData: { words, number } });
    worker.on("exit", (status) => { process.exitCode ||= status; });
  }
} else {
  const { words, number } = workerData;
  const before = Atomics.exchange(words, 0, number);
  if (before === 2) process.exit(5);
}
