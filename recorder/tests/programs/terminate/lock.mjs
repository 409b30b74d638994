// A lock of one word.
export function lock(words) {
  while (Atomics.compareExchange(words, 0, 0, 1) !== 0) Atomics.wait(words, 0, 1);
}

export function unlock(words) {
  Atomics.store(words, 0, 0);
  Atomics.notify(words, 0);
}
