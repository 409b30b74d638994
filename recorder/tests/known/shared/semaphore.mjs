// Permits, of which each is taken by one at a time. It is right.

export class Semaphore {
  /** @param {Int32Array} words the first one says how many permits are left */
  constructor(words) {
    this.words = words;
  }

  acquire() {
    for (;;) {
      const permits = Atomics.load(this.words, 0);
      if (permits === 0) Atomics.wait(this.words, 0, 0);
      else if (Atomics.compareExchange(this.words, 0, permits, permits - 1) === permits) return;
    }
  }

  release() {
    Atomics.add(this.words, 0, 1);
    Atomics.notify(this.words, 0, 1);
  }
}
