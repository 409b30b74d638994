// Wrong: the first test reads the state without Atomics. It races with the write of the state, and what it allows to
// be read races too.

import { Mutex } from "./shared/mutex.mjs";

export const setup = { agents: 2, buffers: [8, 1, 8] };

const USERS = 1;

export default function agent({ buffers }) {
  const words = new Int32Array(buffers[0]);
  const isReady = new Uint8Array(buffers[1]);
  const table = new Float64Array(buffers[2]);
  const mutex = new Mutex(words, 0);
  Atomics.add(words, USERS, 1);
  if (isReady[0] === 0) {
    mutex.lock();
    if (table[0] === 0) table[0] = 0.5;
    isReady[0] = 1;
    mutex.unlock();
  }
  if (table[0] !== 0.5) throw new Error("read too early");
}

export const known = {
  endings: ["race"],
  races: [
    ["if \\(isReady\\[0\\] === 0", "isReady\\[0\\] = 1"],
    ["if \\(table\\[0\\] !== 0", "table\\[0\\] = 0\\.5"],
  ],
};
