// Three agents count under a mutex that waits on a word which its unlock doesn't change: a wake-up can get lost.

export const setup = { agents: 3, buffers: [12] };

const LOCK = 0;
const WAKE = 1;
const COUNT = 2;

export default function agent({ buffers }) {
  const words = new Int32Array(buffers[0]);
  for (let time = 0; time < 3; time += 1) {
    while (Atomics.exchange(words, LOCK, 1) !== 0) Atomics.wait(words, WAKE, 0);
    Atomics.store(words, COUNT, Atomics.load(words, COUNT) + 1);
    Atomics.store(words, LOCK, 0);
    Atomics.notify(words, WAKE, 1);
  }
}
