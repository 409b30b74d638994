// A mutex whose owner notifies before it unlocks, for any number of rounds: who comes between the two sleeps on.

export const setup = { agents: 2, buffers: [8], names: { LOCK: 0, FLAG: 1 } };

export default function agent({ buffers, again }) {
  const words = new Int32Array(buffers[0]);
  while (again()) {
    while (Atomics.compareExchange(words, 0, 0, 1) !== 0) Atomics.wait(words, 0, 1);
    words[1] = 1 - words[1];
    Atomics.notify(words, 0, 1);
    Atomics.store(words, 0, 0);
  }
}
