// Right: a mutex of three states with condition variables, under which one producer hands items to two consumers.

export const setup = { agents: 3, buffers: [16], names: { LOCK: 0, NOT_EMPTY: 1, NOT_FULL: 2, COUNT: 3 } };

const LOCK = 0;
const NOT_EMPTY = 1;
const NOT_FULL = 2;
const COUNT = 3;
const CAPACITY = 2;

/** The states of the lock. */
const FREE = 0;
const HELD = 1;
const CONTENDED = 2;

function lock(words) {
  let state = Atomics.compareExchange(words, LOCK, FREE, HELD);
  while (state !== FREE) {
    if (state === CONTENDED || Atomics.compareExchange(words, LOCK, HELD, CONTENDED) !== FREE) {
      Atomics.wait(words, LOCK, CONTENDED);
    }
    state = Atomics.compareExchange(words, LOCK, FREE, CONTENDED);
  }
}

function unlock(words) {
  if (Atomics.sub(words, LOCK, 1) === HELD) return;
  Atomics.store(words, LOCK, FREE);
  Atomics.notify(words, LOCK, 1);
}

function waitFor(words, condition) {
  const seen = Atomics.load(words, condition);
  unlock(words);
  Atomics.wait(words, condition, seen);
  lock(words);
}

function signal(words, condition) {
  Atomics.add(words, condition, 1);
  Atomics.notify(words, condition, 1);
}

export default function agent({ buffers, agent: self }) {
  const words = new Int32Array(buffers[0]);
  for (let time = 0; time < (self === 0 ? 4 : 2); time += 1) {
    lock(words);
    if (self === 0) {
      while (words[COUNT] === CAPACITY) waitFor(words, NOT_FULL);
      words[COUNT] += 1;
      signal(words, NOT_EMPTY);
    } else {
      while (words[COUNT] === 0) waitFor(words, NOT_EMPTY);
      if (words[COUNT] === 0) throw new Error("it takes where nothing is");
      words[COUNT] -= 1;
      signal(words, NOT_FULL);
    }
    unlock(words);
  }
}
