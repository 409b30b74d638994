// Counts runs that have something in common: how many they are, and which is the first. However many keys there are, a
// certain number of them is kept: those that come first by their spelling. So the kept keys don't depend on the order
// in which runs come, nor on how these are shared out. All runs of a kept key are counted.

import { comesBefore } from "../run/order.mjs";

/**
 * @template T
 * @typedef {object} TallyEntry
 * @property {string} key what the runs have in common
 * @property {number} runs how many they are
 * @property {number} early how many of them fail only after the early end of a timed wait
 * @property {number} first the least seed of the others, or of all if there are no others
 * @property {T} about what else the summary says about the first of them
 */

/**
 * @template T
 * @typedef {Omit<TallyEntry<T>, "early"> & { early?: number }} Joined of other tallies; `early` is 0 if it isn't given
 */

/** @param {{ runs: number, early: number }} entry @returns {boolean} whether all of its runs need an early end */
export const isOnlyEarly = ({ runs, early }) => early === runs;

/** @param {TallyEntry<unknown>} entry @returns {import("../run/order.mjs").FailingRun} its first run */
const firstOf = ({ first, ...entry }) => (isOnlyEarly(entry) ? { seed: first, onlyIf: "" } : { seed: first });

/** How many keys are kept, if nothing else is said. */
export const MOST_KEYS = 4_096;

/** @template T */
export class Tally {
  /** @param {number} [most] how many keys are kept */
  constructor(most = MOST_KEYS) {
    this.most = most;
    /** @type {Map<string, TallyEntry<T>>} */
    this.entries = new Map();
    /** How many runs were counted, under all keys. */
    this.counted = 0;
    /** @type {string | undefined} the last key that is kept, once some weren't */
    this.limit = undefined;
  }

  /**
   * @param {string} key
   * @param {number} seed of the run
   * @param {T} [about] what else the summary says about the run; it is kept for the first run
   * @param {boolean} [isEarly] whether the run fails only after the early end of a timed wait
   */
  add(key, seed, about, isEarly = false) {
    // If nothing is reported about the runs, T is undefined.
    this.#put({ key, runs: 1, early: isEarly ? 1 : 0, first: seed, about: /** @type {T} */ (about) });
  }

  /**
   * Adds what another tally, as large as this one, has counted.
   * @param {Joined<T>[]} entries those that it has kept
   * @param {number} [others] how many runs are counted under keys that it hasn't kept
   */
  join(entries, others = 0) {
    for (const entry of entries) this.#put({ early: 0, ...entry });
    // A tally that left keys out has kept as many as are kept here. So no key that stays here has runs among those that
    // were left out.
    this.counted += others;
  }

  /** @returns {number} how many runs are counted under keys that aren't kept */
  get others() {
    this.#cut();
    return [...this.entries.values()].reduce((left, { runs }) => left - runs, this.counted);
  }

  /** @returns {TallyEntry<T>[]} those of most runs first; after them those whose runs all need an early end */
  sorted() {
    this.#cut();
    return [...this.entries.values()].sort((one, other) => {
      const isLater = Number(isOnlyEarly(one)) - Number(isOnlyEarly(other));
      return isLater || other.runs - one.runs || one.first - other.first || (one.key < other.key ? -1 : 1);
    });
  }

  /** @param {TallyEntry<T>} entry */
  #put(entry) {
    this.counted += entry.runs;
    if (this.limit !== undefined && entry.key > this.limit) return;
    const known = this.entries.get(entry.key);
    if (known !== undefined) {
      const { first, about } = comesBefore(firstOf(entry), firstOf(known)) ? entry : known;
      Object.assign(known, { runs: known.runs + entry.runs, early: known.early + entry.early, first, about });
      return;
    }
    this.entries.set(entry.key, entry);
    // Seldom, since it takes them all.
    if (this.entries.size >= 2 * this.most) this.#cut();
  }

  /** Leaves as many keys as are kept. */
  #cut() {
    if (this.entries.size <= this.most) return;
    const keys = [...this.entries.keys()].sort((one, other) => (one < other ? -1 : 1));
    this.limit = keys[this.most - 1];
    for (const key of keys.slice(this.most)) this.entries.delete(key);
  }
}
