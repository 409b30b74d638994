// The mutex of three states by Ulrich Drepper ("Futexes Are Tricky", the third one): free, locked, and locked while an
// agent may sleep. The wait is on the word that the unlock changes, so no wake-up is lost; and if no agent sleeps, the
// unlock wakes none.

const FREE = 0;
const LOCKED = 1;
const CONTENDED = 2;

export class ThreeStateMutex {
  /** @param {Int32Array} words one word of shared memory that nothing else uses, zero at first */
  constructor(words) {
    this.words = words;
  }

  lock() {
    if (Atomics.compareExchange(this.words, 0, FREE, LOCKED) === FREE) return;
    // From here on it is locked as contended, even if nobody else sleeps: a notify too many wakes nobody, and one too
    // few would be a lost wake-up.
    while (Atomics.exchange(this.words, 0, CONTENDED) !== FREE) {
      Atomics.wait(this.words, 0, CONTENDED);
    }
  }

  unlock() {
    if (Atomics.exchange(this.words, 0, FREE) === CONTENDED) Atomics.notify(this.words, 0, 1);
  }
}
