// Wrong: each of four philosophers takes the fork to the left first, so all may hold one and wait for the other.

export const setup = { agents: 4, buffers: [16] };

const take = (forks, which) => {
  while (Atomics.compareExchange(forks, which, 0, 1) !== 0) Atomics.wait(forks, which, 1);
};
const put = (forks, which) => {
  Atomics.store(forks, which, 0);
  Atomics.notify(forks, which, 1);
};

export default function agent({ buffers, agent: self, agents }) {
  const forks = new Int32Array(buffers[0]);
  for (let meal = 0; meal < 2; meal += 1) {
    take(forks, self);
    take(forks, (self + 1) % agents);
    put(forks, (self + 1) % agents);
    put(forks, self);
  }
}
