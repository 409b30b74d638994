// A mutex of three states, for any number of rounds. Its owner turns a flag by ordinary accesses.

export const setup = { agents: 3, buffers: [8], names: { LOCK: 0, FLAG: 1 } };

export default function agent({ buffers, again }) {
  const words = new Int32Array(buffers[0]);
  while (again()) {
    let seen = Atomics.compareExchange(words, 0, 0, 1);
    if (seen === 1) seen = Atomics.exchange(words, 0, 2);
    while (seen !== 0) {
      Atomics.wait(words, 0, 2);
      seen = Atomics.exchange(words, 0, 2);
    }
    words[1] = 1 - words[1];
    if (Atomics.exchange(words, 0, 0) === 2) Atomics.notify(words, 0, 1);
  }
}
