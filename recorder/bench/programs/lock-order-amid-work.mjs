// Wrong: as lock-order, but after 100 calls of each agent on a word of its own.

export const setup = { agents: 3, buffers: [32] };

const COUNT = 3;
const OWN = 4;

const lock = (words, which) => {
  while (Atomics.compareExchange(words, which, 0, 1) !== 0) Atomics.wait(words, which, 1);
};
const unlock = (words, which) => {
  Atomics.store(words, which, 0);
  Atomics.notify(words, which, 1);
};

export default function agent({ buffers, agent: self }) {
  const words = new Int32Array(buffers[0]);
  const next = (self + 1) % 3;
  for (let time = 0; time < 100; time += 1) Atomics.add(words, OWN + self, 1);
  lock(words, self);
  lock(words, next);
  Atomics.add(words, COUNT, 1);
  unlock(words, next);
  unlock(words, self);
}
