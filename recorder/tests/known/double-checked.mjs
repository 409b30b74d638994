// Right: a table is made by the first that needs it. Its state is tested without the mutex, and once more under it.

import { Mutex } from "./shared/mutex.mjs";

export const setup = { agents: 3, buffers: [8, 32] };

const READY = 1;

function tableOf(words, table) {
  if (Atomics.load(words, READY) === 1) return table;
  const mutex = new Mutex(words, 0);
  mutex.lock();
  if (Atomics.load(words, READY) === 0) {
    for (let at = 0; at < table.length; at += 1) table[at] = at / 2;
    Atomics.store(words, READY, 1);
  }
  mutex.unlock();
  return table;
}

export default function agent({ buffers }) {
  const table = tableOf(new Int32Array(buffers[0]), new Float64Array(buffers[1]));
  if (table.at(-1) !== 1.5) throw new Error(`read ${table.at(-1)}`);
}

export const known = { endings: ["finished"] };
