// A readers-writer lock in one word: how many readers hold it, or that a writer does. The last reader wakes
// all others, and so does the writer. (Readers may keep writers out for as long as they overlap.)

const FREE = 0;
const WRITER = -1;

export class ReadersWriterLock {
  /** @param {Int32Array} words one word of shared memory that nothing else uses, zero at first */
  constructor(words) {
    this.words = words;
  }

  /** Takes the lock with other readers. */
  lockShared() {
    for (;;) {
      const state = Atomics.load(this.words, 0);
      if (state === WRITER) {
        Atomics.wait(this.words, 0, WRITER);
      } else if (Atomics.compareExchange(this.words, 0, state, state + 1) === state) {
        return;
      }
    }
  }

  unlockShared() {
    if (Atomics.sub(this.words, 0, 1) === 1) Atomics.notify(this.words, 0);
  }

  /** Takes the lock alone. */
  lock() {
    for (;;) {
      const state = Atomics.compareExchange(this.words, 0, FREE, WRITER);
      if (state === FREE) return;
      Atomics.wait(this.words, 0, state);
    }
  }

  unlock() {
    Atomics.store(this.words, 0, FREE);
    Atomics.notify(this.words, 0);
  }
}
