// Three agents count to nine together, under one of the mutexes.

import { BellMutex, CountingMutex } from "./mutex.mjs";

const TOTAL = 2;
const ROUNDS = 3;

/** @type {import("sabsim").Setup} */
export const setup = { agents: 3, buffers: [12] };

/** @type {import("sabsim").Agent} */
export default function agent({ buffers: [buffer], args: [which] }) {
  const words = new Int32Array(buffer);
  const mutex = which === "counting" ? new CountingMutex(words) : new BellMutex(words);
  for (let round = 0; round < ROUNDS; round += 1) {
    mutex.lock();
    words[TOTAL] += 1;
    mutex.unlock();
  }
}

/** @type {import("sabsim").WithBuffers} */
export const check = ([buffer], { agents }) => new Int32Array(buffer)[TOTAL] === agents * ROUNDS;
