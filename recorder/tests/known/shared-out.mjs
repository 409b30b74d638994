// Right: numbers that were there from the beginning are shared out by a counter, and summed up under a mutex.

import { Mutex } from "./shared/mutex.mjs";

export const setup = { agents: 2, buffers: [8, 40] };

const NEXT = 1;
const TOTAL = 4;

export function init(buffers) {
  const numbers = new Float64Array(buffers[1]);
  for (let at = 0; at < TOTAL; at += 1) numbers[at] = 2 ** at / 4;
}

export default function agent({ buffers }) {
  const words = new Int32Array(buffers[0]);
  const numbers = new Float64Array(buffers[1]);
  const mutex = new Mutex(words, 0);
  let sum = 0;
  for (let at = Atomics.add(words, NEXT, 1); at < TOTAL; at = Atomics.add(words, NEXT, 1)) sum += numbers[at];
  mutex.lock();
  numbers[TOTAL] += sum;
  mutex.unlock();
}

export function check(buffers) {
  const total = new Float64Array(buffers[1])[TOTAL];
  if (total !== 3.75) throw new Error(`the sum is ${total}`);
}

export const known = { endings: ["finished"] };
