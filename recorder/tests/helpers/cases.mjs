// Cases that agents try one after the other in the same workers: each is a run, and needs no workers of its own.

import { checkedOptions } from "../../lib/library/library-options.mjs";
import { Job } from "../../lib/seeds/job.mjs";
import { CASE_WORD } from "./case-word.mjs";
import { CHECKER } from "./needs.mjs";

/** @typedef {import("../../lib/seeds/job.mjs").CheckedOutcome} CheckedOutcome */

export class Cases {
  /** @type {Job | undefined} undefined: it isn't there yet, or a run has broken it */
  #job;

  /** Which case the next run tries. */
  #at = 0;

  /** @type {Promise<unknown>} settled when no run is under way */
  #rest = Promise.resolve();

  /** @param {object} options as `record` takes them; each run has their seed */
  constructor(options) {
    const init = (/** @type {SharedArrayBuffer[]} */ [buffer]) => {
      new Int32Array(buffer)[CASE_WORD] = this.#at;
    };
    const checked = checkedOptions({ seconds: 5, ...options, init }, () => undefined);
    this.options = { ...checked, checks: true, checkEvery: 1, sabsim: CHECKER, fresh: false };
  }

  /**
   * Tries the cases one after the other.
   * @param {number} count how many
   * @returns {Promise<CheckedOutcome[]>} the outcome of each, when the workers have ended
   */
  async outcomesOfAll(count) {
    try {
      return await Promise.all(Array.from({ length: count }, (_, at) => this.outcomeOf(at)));
    } finally {
      await this.close();
    }
  }

  /**
   * @param {number} at which case
   * @returns {Promise<CheckedOutcome>} the outcome of its run, checked by the simulator
   */
  outcomeOf(at) {
    const outcome = this.#rest.then(() => this.#tried(at));
    this.#rest = outcome.catch(() => {});
    return outcome;
  }

  /** Ends the workers. */
  async close() {
    await this.#rest;
    await this.#job?.close();
  }

  /** @param {number} at @returns {Promise<CheckedOutcome>} */
  async #tried(at) {
    this.#at = at;
    /** @type {CheckedOutcome[]} */
    const outcomes = [];
    try {
      await this.#opened();
      await this.#job?.run([{ seed: this.options.seed, whole: true }], (outcome) => void outcomes.push(outcome));
      return outcomes[0];
    } catch (error) {
      // The other cases get another job.
      await this.#job?.close();
      this.#job = undefined;
      throw error;
    }
  }

  async #opened() {
    if (this.#job !== undefined) return;
    this.#job = new Job();
    await this.#job.open(/** @type {any} */ (this.options));
  }
}
