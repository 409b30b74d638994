// Right: a semaphore over a futex. An agent that finds no permit is counted as a sleeper; a post wakes a sleeper.

export const setup = { agents: 4, buffers: [12], names: { PERMITS: 0, SLEEPERS: 1, INSIDE: 2 } };

const PERMITS = 0;
const SLEEPERS = 1;
const INSIDE = 2;
const MOST = 2;

function acquire(words) {
  for (;;) {
    const permits = Atomics.load(words, PERMITS);
    if (permits > 0) {
      if (Atomics.compareExchange(words, PERMITS, permits, permits - 1) === permits) return;
      continue;
    }
    Atomics.add(words, SLEEPERS, 1);
    Atomics.wait(words, PERMITS, 0);
    Atomics.sub(words, SLEEPERS, 1);
  }
}

function release(words) {
  Atomics.add(words, PERMITS, 1);
  if (Atomics.load(words, SLEEPERS) > 0) Atomics.notify(words, PERMITS, 1);
}

export const init = ([buffer]) => {
  new Int32Array(buffer)[PERMITS] = MOST;
};

export default function agent({ buffers }) {
  const words = new Int32Array(buffers[0]);
  for (let time = 0; time < 2; time += 1) {
    acquire(words);
    const others = Atomics.add(words, INSIDE, 1);
    if (others >= MOST) throw new Error(`${others + 1} are inside with ${MOST} permits`);
    Atomics.sub(words, INSIDE, 1);
    release(words);
  }
}

export const check = ([buffer]) => new Int32Array(buffer)[PERMITS] === MOST;
