// The seeds of runs that are to be made, in their order.

/** @typedef {import("../run/outcome.mjs").WantedRun} WantedRun */

/** The most seeds that a job is given at a time. */
export const BATCH = 16;

export class SeedQueue {
  /** @param {import("./runs.mjs").RunsOptions} options */
  constructor({ first, last, jobs = 1, checkEvery, origin = first, trials = false, failFast = false, wanted, fresh }) {
    this.next = first;
    /** The seed whose run is to be compared with another one of it, if there is one. */
    this.compared = fresh || trials || first === last ? undefined : first;
    this.last = last;
    this.every = checkEvery;
    this.origin = origin;
    /** What is wanted of each run. */
    this.wanted = { isTrial: trials, ...wanted };
    /** How many seeds a job is given at a time. */
    this.batch = failFast ? 1 : Math.max(1, Math.min(BATCH, Math.ceil((last - first + 1) / jobs)));
  }

  /** @returns {WantedRun[]} the next few; none if all were taken */
  take() {
    const seeds = [];
    while (this.left > 0 && seeds.length < this.batch) {
      const whole = this.every > 0 && (this.next - this.origin) % this.every === 0;
      const how = this.next === this.compared ? { ...this.wanted, wantsActs: true } : this.wanted;
      seeds.push({ ...how, seed: this.next, whole });
      this.next += 1;
    }
    return seeds;
  }

  /** @returns {number} how many weren't taken */
  get left() {
    return this.last - this.next + 1;
  }

  /** Leaves nothing to take. */
  stop() {
    this.next = this.last + 1;
  }
}
