// The agent that moved last goes on as a rule; how likely it is that another one moves next is given.

export class Switching {
  /** @param {import("./drawing.mjs").StrategyInputs} parts @param {number} likelihood from 0 to 1 */
  constructor({ random }, likelihood) {
    this.random = random;
    this.likelihood = likelihood;
  }

  begin() {}

  /**
   * @param {import("./able.mjs").Able} able those that can move, of which there is one at least
   * @param {number} last the agent that moved last, or -1
   * @returns {number} who moves next
   */
  drawn(able, last) {
    const { random } = this;
    const { agents, count } = able;
    const place = able.place(last);
    if (place < 0) return agents[random.below(count)];
    if (count === 1 || random.fraction() >= this.likelihood) return last;
    const other = random.below(count - 1);
    return agents[other < place ? other : other + 1];
  }
}
