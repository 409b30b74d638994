// Wrong: the table's state is set before the table is filled, so who doesn't come by the mutex may read too early.

import { Mutex } from "./shared/mutex.mjs";

export const setup = { agents: 2, buffers: [8, 32] };

const READY = 1;

function tableOf(words, table) {
  if (Atomics.load(words, READY) === 1) return table;
  const mutex = new Mutex(words, 0);
  mutex.lock();
  if (Atomics.load(words, READY) === 0) {
    Atomics.store(words, READY, 1);
    for (let at = 0; at < table.length; at += 1) table[at] = at / 2;
  }
  mutex.unlock();
  return table;
}

export default function agent({ buffers }) {
  const table = tableOf(new Int32Array(buffers[0]), new Float64Array(buffers[1]));
  if (table.at(-1) !== 1.5) throw new Error("read too early");
}

export const known = { endings: ["finished", "race"], races: [["table\\[at\\] = at / 2", "table\\.at\\(-1\\) !== 1"]] };
