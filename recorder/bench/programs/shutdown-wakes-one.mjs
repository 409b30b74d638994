// Wrong: the agent that shuts a pool of workers down notifies one that waits for work, and the others wait for ever.

export const setup = { agents: 3, buffers: [8] };

const WORK = 0;
const CLOSED = -1;

function takeWork(words) {
  for (;;) {
    const work = Atomics.load(words, WORK);
    if (work === CLOSED) return false;
    if (work === 0) Atomics.wait(words, WORK, 0);
    else if (Atomics.compareExchange(words, WORK, work, work - 1) === work) return true;
  }
}

export default function agent({ buffers, agent: self }) {
  const words = new Int32Array(buffers[0]);
  if (self > 0) {
    while (takeWork(words));
    return;
  }
  for (let time = 0; time < 2; time += 1) {
    Atomics.add(words, WORK, 1);
    Atomics.notify(words, WORK, 1);
  }
  while (Atomics.load(words, WORK) !== 0);
  Atomics.store(words, WORK, CLOSED);
  Atomics.notify(words, WORK, 1);
}
