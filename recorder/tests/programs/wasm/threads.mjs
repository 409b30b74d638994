// A program of three threads: two workers call a function of a module of WebAssembly, three times each.
import { Worker, isMainThread, workerData } from "node:worker_threads";

/** Where the lock is; behind it stands the counter. */
const LOCK = 64;

/**
 * @param {string} url of the program
 * @param {() => Uint8Array} bytesOf returns the module's
 * @param {string} name of the function
 */
export function count(url, bytesOf, name) {
  if (!isMainThread) {
    const { exports } = new WebAssembly.Instance(workerData.module, { env: { memory: workerData.memory } });
    for (let time = 0; time < 3; time += 1) exports[name](LOCK);
    return;
  }
  const memory = new WebAssembly.Memory({ initial: 1, maximum: 1, shared: true });
  const module = new WebAssembly.Module(bytesOf());
  const workers = [0, 1].map(() => new Worker(new URL(url), { workerData: { memory, module } }));
  Promise.all(workers.map((worker) => new Promise((done) => worker.on("exit", done)))).then(() => {
    const counted = new Int32Array(memory.buffer)[LOCK / 4 + 1];
    if (counted !== 6) throw new Error(`counted ${counted}`);
  });
}
