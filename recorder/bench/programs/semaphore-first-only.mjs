// Wrong: a release of a semaphore wakes an agent only if the count was 0, so the second of two wakes nobody.

export const setup = { agents: 4, buffers: [4] };

const COUNT = 0;

function acquire(words) {
  for (;;) {
    const count = Atomics.load(words, COUNT);
    if (count === 0) Atomics.wait(words, COUNT, 0);
    else if (Atomics.compareExchange(words, COUNT, count, count - 1) === count) return;
  }
}

function release(words) {
  if (Atomics.add(words, COUNT, 1) === 0) Atomics.notify(words, COUNT, 1);
}

export default function agent({ buffers, agent: self }) {
  const words = new Int32Array(buffers[0]);
  if (self < 2) acquire(words);
  else release(words);
}
