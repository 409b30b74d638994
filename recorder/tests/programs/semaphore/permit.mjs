// A permit is taken by one compareExchange; a thread that finds none sleeps until the number isn't 0.
export function acquire(words) {
  for (;;) {
    const left = Atomics.load(words, 0);
    if (left > 0 && Atomics.compareExchange(words, 0, left, left - 1) === left) return;
    if (left === 0) Atomics.wait(words, 0, 0);
  }
}
