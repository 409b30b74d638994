// Peterson's lock for two. It is right if each gives the turn to the other one.

const TURN = 2;

export class Peterson {
  /**
   * @param {Int32Array} words three
   * @param {number} self which of the two it is for
   * @param {number} first whom it gives the turn to
   */
  constructor(words, self, first = 1 - self) {
    this.words = words;
    this.self = self;
    this.first = first;
  }

  lock() {
    const { words, self, first } = this;
    const other = 1 - self;
    Atomics.store(words, self, 1);
    Atomics.store(words, TURN, first);
    while (Atomics.load(words, other) === 1 && Atomics.load(words, TURN) === other);
  }

  unlock() {
    Atomics.store(this.words, this.self, 0);
  }
}
