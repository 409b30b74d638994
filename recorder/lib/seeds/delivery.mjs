// Outcomes that are handed out one by one, in the order of their seeds: they are the same whatever the number of jobs.

/** @typedef {import("./job.mjs").CheckedOutcome} CheckedOutcome */

/** Something that changes again and again. */
class Change {
  /** @type {(() => void)[]} */
  #waiting = [];

  /** @returns {Promise<void>} settled when it changes next */
  next() {
    return new Promise((done) => this.#waiting.push(done));
  }

  /** It has changed. */
  signal() {
    for (const done of this.#waiting.splice(0)) done();
  }
}

export class Delivery {
  /** @param {number} first seed */
  constructor(first) {
    this.next = first;
    /** @type {Map<number, CheckedOutcome | undefined>} outcomes that nobody has taken; undefined: it will never come */
    this.arrived = new Map();
    /** @type {{ failure: unknown } | undefined} why no more will come */
    this.failed = undefined;
    this.isOver = false;
    /** For the code that takes outcomes. */
    this.arrival = new Change();
    /** For the jobs, which make the runs: one was taken. */
    this.taking = new Change();
  }

  /** @param {CheckedOutcome} outcome */
  add(outcome) {
    this.arrived.set(outcome.seed, outcome);
    this.arrival.signal();
  }

  /** @param {number} seed whose outcome will never come */
  lose(seed) {
    this.arrived.set(seed, undefined);
    this.arrival.signal();
  }

  /** @param {unknown} failure the first one is reported */
  fail(failure) {
    this.failed ??= { failure };
    this.arrival.signal();
  }

  /** All have come. */
  finish() {
    this.isOver = true;
    this.arrival.signal();
  }

  /**
   * The outcome of the next seed that has one.
   * @returns {Promise<CheckedOutcome | undefined>} undefined if all were taken; fails if no more will come
   */
  async take() {
    for (;;) {
      if (this.failed !== undefined) throw this.failed.failure;
      if (this.arrived.has(this.next)) {
        const outcome = this.#taken();
        if (outcome !== undefined) return outcome;
      } else if (this.isOver) return undefined;
      else await this.arrival.next();
    }
  }

  /** @returns {CheckedOutcome[]} those that have come and weren't taken, also if one before them will never come */
  left() {
    const seeds = [...this.arrived.keys()].sort((one, other) => one - other);
    return seeds.flatMap((seed) => this.arrived.get(seed) ?? []);
  }

  #taken() {
    const outcome = this.arrived.get(this.next);
    this.arrived.delete(this.next);
    this.next += 1;
    this.taking.signal();
    return outcome;
  }
}
