// Right: Drepper's second mutex. An agent that finds it held marks it as contended by compareExchange, and sleeps.

export const setup = { agents: 3, buffers: [8], names: { LOCK: 0, COUNT: 1 } };

const LOCK = 0;
const COUNT = 1;
const ROUNDS = 3;

/** The states of the lock. */
const FREE = 0;
const HELD = 1;
const CONTENDED = 2;

function lock(words) {
  let state = Atomics.compareExchange(words, LOCK, FREE, HELD);
  while (state !== FREE) {
    const isMarked = state === CONTENDED || Atomics.compareExchange(words, LOCK, HELD, CONTENDED) !== FREE;
    if (isMarked) Atomics.wait(words, LOCK, CONTENDED);
    state = Atomics.compareExchange(words, LOCK, FREE, CONTENDED);
  }
}

function unlock(words) {
  if (Atomics.sub(words, LOCK, 1) !== HELD) {
    Atomics.store(words, LOCK, FREE);
    Atomics.notify(words, LOCK, 1);
  }
}

export default function agent({ buffers }) {
  const words = new Int32Array(buffers[0]);
  for (let time = 0; time < ROUNDS; time += 1) {
    lock(words);
    words[COUNT] += 1;
    unlock(words);
  }
}

export const check = ([buffer], { agents }) => new Int32Array(buffer)[COUNT] === ROUNDS * agents;
