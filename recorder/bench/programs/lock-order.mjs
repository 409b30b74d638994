// Wrong: each of three agents takes two of three locks, in an order that makes a circle.

export const setup = { agents: 3, buffers: [16] };

const COUNT = 3;

const lock = (words, which) => {
  while (Atomics.compareExchange(words, which, 0, 1) !== 0) Atomics.wait(words, which, 1);
};
const unlock = (words, which) => {
  Atomics.store(words, which, 0);
  Atomics.notify(words, which, 1);
};

export default function agent({ buffers, agent: self }) {
  const words = new Int32Array(buffers[0]);
  const next = (self + 1) % 3;
  for (let time = 0; time < 5; time += 1) Atomics.add(words, COUNT, 1);
  lock(words, self);
  lock(words, next);
  Atomics.add(words, COUNT, 1);
  unlock(words, next);
  unlock(words, self);
}
