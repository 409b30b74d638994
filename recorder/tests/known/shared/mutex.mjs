// The mutex of three states: free, taken, and taken with somebody who may wait. It is right.

const FREE = 0;
const TAKEN = 1;
const WAITED_FOR = 2;

export class Mutex {
  /**
   * @param {Int32Array} words
   * @param {number} [at] the position of its word
   */
  constructor(words, at = 0) {
    this.words = words;
    this.at = at;
  }

  lock() {
    const { words, at } = this;
    let state = Atomics.compareExchange(words, at, FREE, TAKEN);
    while (state !== FREE) {
      if (state === WAITED_FOR || Atomics.compareExchange(words, at, TAKEN, WAITED_FOR) !== FREE) {
        Atomics.wait(words, at, WAITED_FOR);
      }
      state = Atomics.compareExchange(words, at, FREE, WAITED_FOR);
    }
  }

  unlock() {
    const { words, at } = this;
    if (Atomics.sub(words, at, 1) === TAKEN) return;
    Atomics.store(words, at, FREE);
    Atomics.notify(words, at, 1);
  }
}
