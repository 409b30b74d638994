// Wrong: a waiter sleeps on a word that unlocking doesn't change, so a notify between its look and its wait is lost.

export const setup = { agents: 2, buffers: [12] };

const LOCK = 0;
const WAKE = 1;
const COUNT = 2;

export default function agent({ buffers }) {
  const words = new Int32Array(buffers[0]);
  for (let time = 0; time < 2; time += 1) {
    while (Atomics.exchange(words, LOCK, 1) !== 0) Atomics.wait(words, WAKE, 0);
    Atomics.add(words, COUNT, 1);
    Atomics.store(words, LOCK, 0);
    Atomics.notify(words, WAKE, 1);
  }
}
