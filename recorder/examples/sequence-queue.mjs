// A bounded queue for many producers and consumers, with a sequence number for each slot. It is well known, and isn't
// linearizable: a value that was put can't be taken while an earlier one is still on its way.

// Words: how many values were put and taken, and then each slot's sequence number and its value.
const PUT = 0;
const TAKEN = 1;
const SLOTS = 2;

export class SequenceQueue {
  /** @param {Int32Array} words two more than twice the capacity, of shared memory that `fill` has filled */
  constructor(words) {
    this.words = words;
    this.capacity = (words.length - SLOTS) / 2;
  }

  /** @param {Int32Array} words of a queue that is empty, all zero before */
  static fill(words) {
    for (let slot = 0; SLOTS + 2 * slot < words.length; slot += 1) words[SLOTS + 2 * slot] = slot;
  }

  /**
   * @param {number} value
   * @returns {boolean} false if the queue is full
   */
  tryPut(value) {
    for (;;) {
      const put = Atomics.load(this.words, PUT);
      const slot = SLOTS + 2 * (put % this.capacity);
      const sequence = Atomics.load(this.words, slot);
      if (sequence < put) return false;
      if (sequence !== put || Atomics.compareExchange(this.words, PUT, put, put + 1) !== put) continue;
      Atomics.store(this.words, slot + 1, value);
      Atomics.store(this.words, slot, put + 1);
      return true;
    }
  }

  /** @returns {number | undefined} the oldest value; undefined if there is none */
  tryTake() {
    for (;;) {
      const taken = Atomics.load(this.words, TAKEN);
      const slot = SLOTS + 2 * (taken % this.capacity);
      const sequence = Atomics.load(this.words, slot);
      if (sequence < taken + 1) return undefined;
      if (sequence !== taken + 1) continue;
      if (Atomics.compareExchange(this.words, TAKEN, taken, taken + 1) !== taken) continue;
      const value = Atomics.load(this.words, slot + 1);
      Atomics.store(this.words, slot, taken + this.capacity);
      return value;
    }
  }
}
