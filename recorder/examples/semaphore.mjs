// A counting semaphore: a word has the number of permits that are left. An agent that finds none sleeps until one is
// given back, or until its time is up.

export class Semaphore {
  /** @param {Int32Array} words one word of shared memory that nothing else uses; zero is no permit */
  constructor(words) {
    this.words = words;
  }

  /**
   * Takes a permit.
   * @param {number} [timeout] how many milliseconds to sleep at most, each time that there is no permit
   * @returns {boolean} false if the time was up
   */
  acquire(timeout = Infinity) {
    for (;;) {
      const permits = Atomics.load(this.words, 0);
      if (permits === 0) {
        if (Atomics.wait(this.words, 0, 0, timeout) === "timed-out") return false;
      } else if (Atomics.compareExchange(this.words, 0, permits, permits - 1) === permits) {
        return true;
      }
    }
  }

  /** Gives a permit back, or adds a new one. */
  release() {
    Atomics.add(this.words, 0, 1);
    Atomics.notify(this.words, 0, 1);
  }
}
