// Wrong: as lost-wake-up, but among 60 calls of each agent on words of its own.

export const setup = { agents: 2, buffers: [32] };

const LOCK = 0;
const WAKE = 1;
const OWN = 4;

export default function agent({ buffers, agent: self }) {
  const words = new Int32Array(buffers[0]);
  const work = () => {
    for (let time = 0; time < 30; time += 1) Atomics.add(words, OWN + self, 1);
  };
  for (let time = 0; time < 2; time += 1) {
    work();
    while (Atomics.exchange(words, LOCK, 1) !== 0) Atomics.wait(words, WAKE, 0);
    work();
    Atomics.store(words, LOCK, 0);
    Atomics.notify(words, WAKE, 1);
  }
}
