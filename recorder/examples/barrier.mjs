// A barrier that can be used again and again, by reversing its sense: nobody goes on before all have arrived. The last
// to arrive turns the sense, which is 0 and 1 in turn, and wakes the others. An agent that is slow to wake finds the
// sense turned, and it can't be turned back before this agent arrives at the next barrier.

// Words.
const ARRIVED = 0;
const SENSE = 1;

export class Barrier {
  /** What SENSE is before this agent's next barrier is open. Each agent has its own. */
  #sense = 0;

  /**
   * @param {Int32Array} words two words of shared memory that nothing else uses, zero at first
   * @param {number} parties how many agents meet
   */
  constructor(words, parties) {
    this.words = words;
    this.parties = parties;
  }

  /** Sleeps until all parties have arrived. */
  arrive() {
    const closed = this.#sense;
    this.#sense = 1 - closed;
    if (Atomics.add(this.words, ARRIVED, 1) === this.parties - 1) {
      // Before the sense turns, for then the first may arrive at the next barrier.
      Atomics.store(this.words, ARRIVED, 0);
      Atomics.store(this.words, SENSE, this.#sense);
      Atomics.notify(this.words, SENSE);
    } else {
      while (Atomics.load(this.words, SENSE) === closed) Atomics.wait(this.words, SENSE, closed);
    }
  }
}
