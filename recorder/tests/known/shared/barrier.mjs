// A barrier that may be used again: its generation goes on when all have come. It is right.

const ARRIVED = 0;
const GENERATION = 1;

export class Barrier {
  /**
   * @param {Int32Array} words two
   * @param {number} agents how many come
   */
  constructor(words, agents) {
    this.words = words;
    this.agents = agents;
  }

  arrive() {
    const { words } = this;
    const generation = Atomics.load(words, GENERATION);
    if (Atomics.add(words, ARRIVED, 1) === this.agents - 1) {
      Atomics.store(words, ARRIVED, 0);
      Atomics.add(words, GENERATION, 1);
      Atomics.notify(words, GENERATION);
    } else {
      while (Atomics.load(words, GENERATION) === generation) Atomics.wait(words, GENERATION, generation);
    }
  }
}
