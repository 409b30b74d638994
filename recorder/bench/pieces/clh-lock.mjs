// Right: the lock of Craig, Landin and Hagersten. Each spins on the node of the one before, and takes that node over.

export const setup = { agents: 3, buffers: [24], names: { TAIL: 0, COUNT: 1 } };

const TAIL = 0;
const COUNT = 1;
// One node for each agent, and before them the one that is free at first.
const TAKEN = 2;
const ROUNDS = 2;

class Lock {
  constructor(words, self) {
    this.words = words;
    this.node = self + 1;
  }

  lock() {
    Atomics.store(this.words, TAKEN + this.node, 1);
    this.before = Atomics.exchange(this.words, TAIL, this.node);
    while (Atomics.load(this.words, TAKEN + this.before) === 1);
  }

  unlock() {
    Atomics.store(this.words, TAKEN + this.node, 0);
    this.node = this.before;
  }
}

export default function agent({ buffers, agent: self }) {
  const words = new Int32Array(buffers[0]);
  const lock = new Lock(words, self);
  for (let time = 0; time < ROUNDS; time += 1) {
    lock.lock();
    words[COUNT] += 1;
    lock.unlock();
  }
}

export const check = ([buffer], { agents }) => new Int32Array(buffer)[COUNT] === ROUNDS * agents;
