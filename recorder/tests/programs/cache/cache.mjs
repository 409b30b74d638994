// What a worker answers is kept for 300 s. `keepsPromise`: also while the answer is under way.
import { once } from "node:events";
import { Worker } from "node:worker_threads";

export function createCache(keepsPromise) {
  const worker = new Worker(new URL("./worker.mjs", import.meta.url));
  worker.unref();
  const kept = new Map();
  const keep = (key, what) => {
    kept.set(key, what);
    setTimeout(() => kept.delete(key), 300_000).unref();
  };
  async function ask(key) {
    worker.ref();
    worker.postMessage(key);
    const [answer] = await once(worker, "message");
    worker.unref();
    return answer;
  }
  return async function get(key) {
    if (kept.has(key)) return kept.get(key);
    const answer = keepsPromise ? ask(key) : await ask(key);
    keep(key, answer);
    return answer;
  };
}
