// Tries every use of an object: with ever more agents and operations, until a failure is found or the time is over.

import { mayBeObject } from "../objects/object-file.mjs";
import { TIME_OVER, overAfter } from "../processes/time-over.mjs";
import { Every, seedsOf } from "./every.mjs";

/** @typedef {import("./every.mjs").EveryResult} EveryResult */
/** @typedef {{ agents: number, each: number | "any" }} UseSize agents, each with so many operations at most */

/**
 * @typedef {object} TriedUses what was tried of an object
 * @property {UseSize[]} finished
 * @property {UseSize} size of the search that is reported
 * @property {UseSize} next the size that was tried last
 * @property {string | undefined} open why no more sizes were tried, if that isn't a failure that was found
 * @property {boolean} isEnough whether the sizes were finished that must be
 */

/** @typedef {EveryResult & { uses?: TriedUses }} EveryUseResult */

const NOT_JUDGED = "some histories weren't judged: they need more than 65,536 states of what is right, or 100,000 "
  + "configurations";

/** So many agents, each with so many operations, must be finished if no size is given. */
const ENOUGH = Object.freeze([{ agents: 2, each: 2 }, { agents: 3, each: 1 }]);

const MOST_AGENTS = 8;
const MOST_SUM = 24;
const FEWEST_AGENTS = 2;

/**
 * The sizes, in the order in which they are tried.
 * @param {{ agents?: number, each?: number | "any" }} given
 * @returns {UseSize[]}
 */
export function sizesOf({ agents, each }) {
  if (agents !== undefined && each !== undefined) return [{ agents, each }];
  /** @type {UseSize[]} */
  const sizes = [];
  for (let sum = FEWEST_AGENTS + 1; sum <= MOST_SUM; sum += 1) {
    for (let many = FEWEST_AGENTS; many <= MOST_AGENTS && many < sum; many += 1) {
      sizes.push({ agents: many, each: sum - many });
    }
  }
  if (agents !== undefined) return Array.from({ length: MOST_SUM }, (_, at) => ({ agents, each: at + 1 }));
  if (each !== undefined) {
    return Array.from({ length: MOST_AGENTS - 1 }, (_, at) => ({ agents: FEWEST_AGENTS + at, each }));
  }
  return sizes;
}

/** @param {UseSize[]} finished @param {UseSize} size @returns {boolean} whether a search had that, or more */
const isWithin = (finished, size) =>
  finished.some(({ agents, each }) => agents >= size.agents && (each === "any" || each >= Number(size.each)));

export class EveryUse {
  /**
   * @param {import("./every.mjs").EveryRunOptions} options
   * @param {ConstructorParameters<typeof Every>[1] & { isBrief?: boolean }} how as `Every` has it; whether only those
   * sizes are tried that must be, unless some are given
   */
  constructor(options, { over = overAfter(options.within), isBrief = false, ...how }) {
    this.isBrief = isBrief;
    // The runs of an object are drawn: marks are in no schedule that could be given.
    this.options = mayBeObject(options.module) ? { ...options, covers: false } : options;
    this.how = { ...how, over };
    this.begun = performance.now();
    /** @type {Every | undefined} the search that runs */
    this.every = undefined;
  }

  /** How many states were found so far. */
  get states() {
    return this.every?.states ?? 0;
  }

  /** The seeds of the real runs that are drawn. */
  get seeds() {
    return seedsOf(this.options);
  }

  /** The outcomes of the real runs. */
  get outcomes() {
    return this.every?.outcomes ?? [];
  }

  /** @returns {Promise<EveryUseResult>} */
  async run() {
    if (!mayBeObject(this.options.module)) return await this.#search(this.options);
    const { agents, each } = /** @type {any} */ (this.options);
    const isOpen = agents === undefined && each === undefined;
    return await this.#grow(this.isBrief && isOpen ? [...ENOUGH] : sizesOf({ agents, each }));
  }

  /** @param {import("./every.mjs").EveryRunOptions} options @returns {Promise<EveryResult>} */
  async #search(options) {
    this.every = new Every(options, this.how);
    // The first job is of the first search alone.
    this.how = { ...this.how, job: undefined };
    return await this.every.run();
  }

  /** @returns {number} how many seconds are left */
  #left() {
    return this.options.within - (performance.now() - this.begun) / 1_000;
  }

  /** @param {UseSize[]} sizes @returns {Promise<EveryUseResult>} of the last one that was finished, if one was */
  async #grow(sizes) {
    /** @type {readonly UseSize[]} */
    const needed = sizes.length === 1 ? sizes : ENOUGH;
    /** @type {UseSize[]} */
    const finished = [];
    /** @type {EveryUseResult | undefined} */
    let last;
    for (const size of sizes) {
      if (last !== undefined && this.#left() <= 0) return notFinished(last, size, TIME_OVER);
      const tried = await this.#search({ ...this.options, ...size, within: Math.max(this.#left(), 0) });
      const { object } = tried.report ?? {};
      if (tried.report !== undefined && object === undefined) return await this.#search(this.options);
      const isFound = tried.shown.length > 0 || tried.onlyRuns.length > 0;
      const isJudged = object?.notJudged === 0 && object.isFinished;
      const isClosed = tried.open === undefined && !tried.isCut && isJudged;
      const why = this.#left() <= 0 ? TIME_OVER : tried.open ?? (isJudged ? TIME_OVER : NOT_JUDGED);
      if (!isClosed && !isFound && last !== undefined) return notFinished(last, size, why);
      if (isClosed) finished.push(size);
      const isEnough = needed.every((one) => isWithin(finished, one));
      const open = isClosed ? undefined : why;
      last = { ...tried, uses: { finished: [...finished], size, next: size, open, isEnough } };
      if (!isClosed || isFound) return last;
    }
    return /** @type {EveryUseResult} */ (last);
  }
}

/**
 * @param {EveryUseResult} last of the sizes that were finished
 * @param {UseSize} next that wasn't
 * @param {string} open why
 * @returns {EveryUseResult}
 */
const notFinished = (last, next, open) =>
  ({ ...last, uses: { .../** @type {TriedUses} */ (last.uses), next, open } });
