// Right: Drepper's third mutex. An agent that finds it held makes it a contended lock by exchange, and sleeps.

export const setup = { agents: 3, buffers: [8], names: { LOCK: 0, COUNT: 1 } };

const LOCK = 0;
const COUNT = 1;
const ROUNDS = 3;

/** The states of the lock. */
const FREE = 0;
const HELD = 1;
const CONTENDED = 2;

function lock(words) {
  let state = Atomics.compareExchange(words, LOCK, FREE, HELD);
  if (state === FREE) return;
  if (state !== CONTENDED) state = Atomics.exchange(words, LOCK, CONTENDED);
  while (state !== FREE) {
    Atomics.wait(words, LOCK, CONTENDED);
    state = Atomics.exchange(words, LOCK, CONTENDED);
  }
}

function unlock(words) {
  if (Atomics.sub(words, LOCK, 1) !== HELD) {
    Atomics.store(words, LOCK, FREE);
    Atomics.notify(words, LOCK, 1);
  }
}

export default function agent({ buffers }) {
  const words = new Int32Array(buffers[0]);
  for (let time = 0; time < ROUNDS; time += 1) {
    lock(words);
    words[COUNT] += 1;
    unlock(words);
  }
}

export const check = ([buffer], { agents }) => new Int32Array(buffer)[COUNT] === ROUNDS * agents;
