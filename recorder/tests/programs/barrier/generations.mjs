// A barrier that remembers the round before a thread arrives. The last one wakes so many of the others.
export const arriver = (woken) => (words, members) => {
  const round = Atomics.load(words, 1);
  if (Atomics.add(words, 0, 1) === members - 1) {
    Atomics.store(words, 0, 0);
    Atomics.add(words, 1, 1);
    Atomics.notify(words, 1, woken);
  }
  while (Atomics.load(words, 1) === round) Atomics.wait(words, 1, round);
};
