// A program whose threads count to nine together, under one of the mutexes.

import { Worker, isMainThread, workerData } from "node:worker_threads";
import { BellMutex, CountingMutex } from "./mutex.mjs";

const TOTAL = 2;
const THREADS = 3;
const ROUNDS = 3;

if (isMainThread) {
  const buffer = new SharedArrayBuffer(12);
  const [which] = process.argv.slice(2);
  for (let thread = 0; thread < THREADS; thread += 1) {
    new Worker(new URL(import.meta.url), { workerData: { buffer, which } });
  }
} else {
  const words = new Int32Array(workerData.buffer);
  const mutex = workerData.which === "counting" ? new CountingMutex(words) : new BellMutex(words);
  for (let round = 0; round < ROUNDS; round += 1) {
    mutex.lock();
    words[TOTAL] += 1;
    mutex.unlock();
  }
}
