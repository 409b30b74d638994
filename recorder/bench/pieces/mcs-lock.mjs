// Right: the lock of Mellor-Crummey and Scott. Agents that want it make a list, and each spins on a word of its own.

export const setup = { agents: 3, buffers: [32], names: { TAIL: 0, COUNT: 1 } };

const TAIL = 0;
const COUNT = 1;
const NEXT = 2;
const LOCKED = 5;
const ROUNDS = 2;

/** TAIL and NEXT have an agent's number plus 1; 0 is no agent. */
function lock(words, self) {
  Atomics.store(words, NEXT + self, 0);
  const before = Atomics.exchange(words, TAIL, self + 1);
  if (before === 0) return;
  Atomics.store(words, LOCKED + self, 1);
  Atomics.store(words, NEXT + before - 1, self + 1);
  while (Atomics.load(words, LOCKED + self) === 1);
}

function unlock(words, self) {
  if (Atomics.load(words, NEXT + self) === 0) {
    if (Atomics.compareExchange(words, TAIL, self + 1, 0) === self + 1) return;
    while (Atomics.load(words, NEXT + self) === 0);
  }
  Atomics.store(words, LOCKED + Atomics.load(words, NEXT + self) - 1, 0);
}

export default function agent({ buffers, agent: self }) {
  const words = new Int32Array(buffers[0]);
  for (let time = 0; time < ROUNDS; time += 1) {
    lock(words, self);
    words[COUNT] += 1;
    unlock(words, self);
  }
}

export const check = ([buffer], { agents }) => new Int32Array(buffer)[COUNT] === ROUNDS * agents;
