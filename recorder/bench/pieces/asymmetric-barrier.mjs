// Right: a barrier of a master and its workers. The master waits for all workers, and they wait for its next task.

export const setup = {
  agents: 3, buffers: [8, 16], names: { CAME: 0, ROUND: 1, data: ["Int32", 1] },
};

const CAME = 0;
const ROUND = 1;
const TASK = 3;
const ROUNDS = 3;

/** The master's: sleeps until all workers have come. */
function waitForWorkers(words, workers) {
  let came = Atomics.load(words, CAME);
  while (came < workers) {
    Atomics.wait(words, CAME, came);
    came = Atomics.load(words, CAME);
  }
}

/** The master's: lets the workers go on. */
function release(words) {
  Atomics.store(words, CAME, 0);
  Atomics.add(words, ROUND, 1);
  Atomics.notify(words, ROUND);
}

/** A worker's: sleeps until the master lets it go on. */
function enter(words, workers) {
  const round = Atomics.load(words, ROUND);
  if (Atomics.add(words, CAME, 1) === workers - 1) Atomics.notify(words, CAME);
  while (Atomics.load(words, ROUND) === round) Atomics.wait(words, ROUND, round);
}

export default function agent({ buffers, agent: self, agents }) {
  const words = new Int32Array(buffers[0]);
  const data = new Int32Array(buffers[1]);
  for (let round = 1; round <= ROUNDS; round += 1) {
    if (self > 0) {
      enter(words, agents - 1);
      data[self] = data[TASK] * self;
      continue;
    }
    waitForWorkers(words, agents - 1);
    if (data[1] !== round - 1 || data[2] !== 2 * (round - 1)) throw new Error(`after round ${round - 1}: ${data}`);
    data[TASK] = round;
    release(words);
  }
}
