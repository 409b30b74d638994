// Two mutexes on two words: whether it is locked, and one that waiters sleep on.

const LOCKED = 0;
const BELL = 1;

/** Its waiters sleep until a ring, and a ring before they sleep wakes nobody. */
export class BellMutex {
  /** @param {Int32Array} words */
  constructor(words) {
    this.words = words;
  }

  lock() {
    while (Atomics.exchange(this.words, LOCKED, 1) !== 0) Atomics.wait(this.words, BELL, 0);
  }

  unlock() {
    Atomics.store(this.words, LOCKED, 0);
    Atomics.notify(this.words, BELL, 1);
  }
}

/** Each ring changes the bell, so a waiter that has seen it before doesn't sleep on it. */
export class CountingMutex {
  /** @param {Int32Array} words */
  constructor(words) {
    this.words = words;
  }

  lock() {
    for (;;) {
      const rings = Atomics.load(this.words, BELL);
      if (Atomics.exchange(this.words, LOCKED, 1) === 0) return;
      Atomics.wait(this.words, BELL, rings);
    }
  }

  unlock() {
    Atomics.store(this.words, LOCKED, 0);
    Atomics.add(this.words, BELL, 1);
    Atomics.notify(this.words, BELL, 1);
  }
}
