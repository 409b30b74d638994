// Agents 0 and 1 write a number into both of two words, and the others read them. Under the lock the words are always
// equal.

import { ReadersWriterLock } from "./readers-writer.mjs";

const WRITERS = 2;

/** @type {import("sabsim").Setup} */
export const setup = { agents: 4, buffers: [12] };

/** @type {import("sabsim").Agent} */
export default function agent({ buffers, agent, args }) {
  const lock = new ReadersWriterLock(new Int32Array(buffers[0], 0, 1));
  const pair = new Int32Array(buffers[0], 4, 2);
  const rounds = Number(args[0] ?? 3);
  for (let round = 1; round <= rounds; round += 1) {
    if (agent < WRITERS) {
      lock.lock();
      write(pair, 10 * (agent + 1) + round);
      lock.unlock();
    } else {
      lock.lockShared();
      demandEqual(pair);
      lock.unlockShared();
    }
  }
}

/** @param {Int32Array} pair @param {number} number */
function write(pair, number) {
  demandEqual(pair);
  Atomics.store(pair, 0, number);
  Atomics.store(pair, 1, number);
  demandEqual(pair);
}

/** @param {Int32Array} pair */
function demandEqual(pair) {
  const [first, second] = [Atomics.load(pair, 0), Atomics.load(pair, 1)];
  if (first !== second) throw new Error(`a writer is inside: the words are ${first} and ${second}`);
}
