// A bounded queue of one producer and one consumer, as a ring. Each of the two owns one count, which the other only
// reads: how many values were put, and how many were taken. An agent that can't go on sleeps on the other's count.

// Words: the two counts, and then the slots.
const PUT = 0;
const TAKEN = 1;
const SLOTS = 2;

export class BoundedQueue {
  /** @param {Int32Array} words two more than the queue's capacity, of shared memory that nothing else uses, all zero */
  constructor(words) {
    this.words = words;
    this.capacity = words.length - SLOTS;
  }

  /**
   * The producer's: puts a value, and sleeps while the queue is full.
   * @param {number} value
   */
  put(value) {
    const put = Atomics.load(this.words, PUT);
    this.#sleepWhile(TAKEN, put - this.capacity);
    Atomics.store(this.words, SLOTS + (put % this.capacity), value);
    this.#advance(PUT, put);
  }

  /** The consumer's: takes the oldest value, and sleeps while the queue is empty. */
  take() {
    const taken = Atomics.load(this.words, TAKEN);
    this.#sleepWhile(PUT, taken);
    const value = Atomics.load(this.words, SLOTS + (taken % this.capacity));
    this.#advance(TAKEN, taken);
    return value;
  }

  /**
   * Sleeps as long as the other's count is this one.
   * @param {number} other
   * @param {number} count
   */
  #sleepWhile(other, count) {
    while (Atomics.load(this.words, other) === count) Atomics.wait(this.words, other, count);
  }

  /** @param {number} own @param {number} count */
  #advance(own, count) {
    Atomics.store(this.words, own, count + 1);
    Atomics.notify(this.words, own, 1);
  }
}
