// Wrong: an event is set back after its waiter has gone on, so one that was set in between is forgotten.

export const setup = { agents: 2, buffers: [8] };

const EVENT = 0;
const TIMES = 2;

export default function agent({ buffers, agent: self }) {
  const words = new Int32Array(buffers[0]);
  const taken = 1;
  for (let time = 0; time < TIMES; time += 1) {
    if (self === 0) {
      Atomics.store(words, EVENT, 1);
      Atomics.notify(words, EVENT);
      while (time + 1 < TIMES && Atomics.load(words, taken) <= time);
      continue;
    }
    while (Atomics.load(words, EVENT) === 0) Atomics.wait(words, EVENT, 0);
    Atomics.add(words, taken, 1);
    Atomics.store(words, EVENT, 0);
  }
}
