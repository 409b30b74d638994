// Right: dining philosophers who take the fork of the lesser number first, so that no circle of them can wait.

export const setup = { agents: 4, buffers: [16, 4], names: { forks: ["Int32", 0], MEALS: ["Int32", 1, 0] } };

const MEALS_EACH = 2;

function takeFork(forks, fork) {
  while (Atomics.compareExchange(forks, fork, 0, 1) !== 0) Atomics.wait(forks, fork, 1);
}

function putFork(forks, fork) {
  Atomics.store(forks, fork, 0);
  Atomics.notify(forks, fork, 1);
}

export default function agent({ buffers, agent: self, agents }) {
  const forks = new Int32Array(buffers[0]);
  const meals = new Int32Array(buffers[1]);
  const [left, right] = [self, (self + 1) % agents];
  const [first, second] = [Math.min(left, right), Math.max(left, right)];
  for (let meal = 0; meal < MEALS_EACH; meal += 1) {
    takeFork(forks, first);
    takeFork(forks, second);
    Atomics.add(meals, 0, 1);
    putFork(forks, second);
    putFork(forks, first);
  }
}

export const check = (buffers, { agents }) => new Int32Array(buffers[1])[0] === MEALS_EACH * agents;
