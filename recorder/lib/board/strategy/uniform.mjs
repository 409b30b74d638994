// All agents that can move are equally likely.

export class Uniform {
  /** @param {import("./drawing.mjs").StrategyInputs} parts */
  constructor({ random }) {
    this.random = random;
  }

  begin() {}

  /** @param {import("./able.mjs").Able} able @returns {number} who moves next */
  drawn(able) {
    return able.agents[this.random.below(able.count)];
  }
}
