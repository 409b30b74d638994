// The shortest run that fails in the same way as one that was found. Runs without the early end of a timed wait come
// first, then those with the fewest changes of agents, then those with the fewest calls, then those with the fewest and
// smallest choices. It is looked for by runs that are forced to go by rows, as long as that helps. A row is the found
// run's in another order, without some of its stretches, with two stretches of an agent joined, or with one made
// shorter. If agents choose, it is also looked for with fewer rounds and smaller numbers.

import { areSame, firstOtherMove } from "../run/same.mjs";
import { NO_SCRIPT } from "../run/words/unseen-text.mjs";
import { OTHER_INPUT, TIMES_TRIED } from "../run/words/summary-words.mjs";
import { failsAlike } from "./alike.mjs";
import {
  compareChoices, lowerable, mostRounds, withSmaller, withZeros, withoutRounds,
} from "./fewer-choices.mjs";
import { groupedByAgent } from "./grouped-by-agent.mjs";
import { keptScript } from "./kept-script.mjs";
import { changesOf, joinedFrom, rowOf, shortenedAt, stretchesOf, stretchesWithout } from "./stretches.mjs";

/** @typedef {import("../run/outcome.mjs").Outcome} Outcome */
/** @typedef {import("../run/outcome.mjs").One} One */
/** @typedef {import("./stretches.mjs").Stretch} Stretch */
/** @typedef {import("../run/same.mjs").RunSummary} RunSummary */

/** @typedef {{ before: number, after: number }} BeforeAndAfter */

/**
 * @typedef {object} Shortened the result of shortening a failing run
 * @property {number} runs how many it took
 * @property {BeforeAndAfter} changes how often the agent that moved changed: in the run as it was found, and in the
 * shortest
 * @property {BeforeAndAfter} calls of Atomics that were begun, in the same two runs
 * @property {string} [stopped] why it was ended before all was tried
 * @property {string} [unchanged] why the run is returned as it was found
 */

/**
 * @typedef {object} ShortenResult
 * @property {One} [shortest] undefined: the run is returned as it was found
 * @property {Shortened} shortened
 */

/**
 * @typedef {object} ShortenLimits
 * @property {number} [most] how many runs are made at most
 * @property {number} [milliseconds] how long it may take
 * @property {(tried: ShortenProgress) => void} [onTry] is called with each run that was made
 * @property {boolean} [isFresh] whether the agents' workers are started anew before
 */

/**
 * @typedef {{ runs: number, changes: number }} ShortenProgress how many runs were made, and the changes of the shortest
 * then
 */

/** The runs that are made at most. A machine that makes as many in time finds the same run as every other one. */
const MOST_RUNS = 400;

const MOST_MILLISECONDS = 10_000;

/** What a run says whose message has a line only if lines are noted: then runs that are compared all note them. */
const UNSETTLED = /has a top-level await that never settles/;

const OTHERWISE = "it couldn't be made again in the same way";
const NOT_AGAIN = `${OTHERWISE}: its agents do something else when they run once more`;

const NOT_AGAIN_BY_INPUT = `${OTHERWISE}: ${OTHER_INPUT}`;

/** @param {Pick<RunSummary, "real">} summary */
const notAgain = ({ real }) => (real === undefined ? NOT_AGAIN : NOT_AGAIN_BY_INPUT);

/**
 * @typedef {{ isEarly: boolean, changes: number, calls: number } & import("./fewer-choices.mjs").ChosenRun} Measured
 */

/** @param {One} run whose outcome has its row @returns {Measured} how long a run is, and whether a wait ends early */
const measured = ({ outcome: { row = [], onlyIf, calls, choices }, aside: { drawsBefore } }) =>
  ({ row, isEarly: onlyIf !== undefined, changes: changesOf(row), calls, choices, drawsBefore });

/** @param {Measured} one @param {Measured} other */
function isShorter(one, other) {
  if (one.isEarly !== other.isEarly) return other.isEarly;
  if (one.changes !== other.changes) return one.changes < other.changes;
  if (one.calls !== other.calls) return one.calls < other.calls;
  const chosen = compareChoices(one, other);
  return chosen === 0 ? one.row.length < other.row.length : chosen < 0;
}

/**
 * Why a failing run isn't shortened, if so. If a run meets a limit, it says little how far it gets. If a worker dies in
 * each run that is tried, it takes too long.
 * @param {RunSummary} summary
 * @returns {string | undefined}
 */
function whyNot({ ending, detail, calls, noScript }) {
  if (noScript === NO_SCRIPT) return NO_SCRIPT;
  if (calls === 0) return "it has no call of Atomics that could be left out, or come at another time";
  if (ending === "limit") return "it met a limit";
  if (ending === "failed" && /^agent \d+'s worker died: /.test(detail)) return "an agent's worker died";
  return undefined;
}

class Search {
  /**
   * @param {import("../run/group.mjs").Group} group
   * @param {One} first the run as it was found, with its row
   * @param {Required<ShortenLimits>} limits
   * @param {number} begun when it has begun, in milliseconds
   */
  constructor(group, first, limits, begun) {
    this.group = group;
    this.first = first;
    this.limits = limits;
    this.until = begun + limits.milliseconds;
    /** The shortest of all, and the shortest of those that go on from the found run in one way. */
    this.best = measured(first);
    this.current = this.best;
    // That run is the first, and the shortest will be made once more.
    this.runs = 2;
    /** @type {Map<string, Measured | undefined>} what came of the rows that were tried; undefined: another failure */
    this.known = new Map();
    /** @type {string | undefined} why it has ended before all was tried */
    this.stopped = undefined;
  }

  /** Looks for shorter runs, from the found run's first stretch on and from its last one, until no try is better. */
  async run() {
    await this.#tryEach(this.#orders());
    await this.#dropRounds();
    const start = this.current;
    for (const isBackward of [false, true]) {
      this.current = start;
      await this.#dropChunks(isBackward);
      while (await this.#tryAll(joinedFrom) || await this.#tryAll(droppedAt) || await this.#tryAll(shortenedAt)
        || await this.#dropRounds() || await this.#lowerNumbers());
      if (isShorter(this.current, this.best)) this.best = this.current;
    }
  }

  /** @returns {Stretch[][]} the found run's row in equivalent orders */
  #orders() {
    const { script } = this.first.outcome;
    if (script === undefined) return [];
    const kept = keptScript(script, "the run");
    const rows = kept.canBlock.map((_, agent) => stretchesOf(groupedByAgent(kept, agent)));
    return rows.sort((one, other) => one.length - other.length);
  }

  /**
   * Leaves out many rounds in a row, then ever fewer.
   * @returns {Promise<boolean>} whether that was better
   */
  async #dropRounds() {
    let isBetter = false;
    for (let size = mostRounds(this.current); size >= 1; size = Math.floor(size / 2)) {
      for (let at = 0; at < mostRounds(this.current);) {
        if (await this.#tryFewer(withoutRounds(this.current, at, size))) isBetter = true;
        else at += size;
      }
    }
    return isBetter;
  }

  /** Lets agents choose smaller numbers. @returns {Promise<boolean>} whether that was better */
  async #lowerNumbers() {
    let isBetter = await this.#tryFewer(withZeros(this.current));
    for (let at = 0; at < lowerable(this.current).length;) {
      if (await this.#tryFewer(withSmaller(this.current, lowerable(this.current)[at]))) isBetter = true;
      else at += 1;
    }
    return isBetter;
  }

  /** @param {import("./fewer-choices.mjs").FewerChoices[]} runs @returns {Promise<boolean>} as `#tryEach` */
  async #tryFewer(runs) {
    for (const { row, choices } of runs) {
      if (await this.#isBetter(stretchesOf(row), choices)) return true;
    }
    return false;
  }

  /** @returns {Stretch[]} those of the shortest run so far */
  #stretches() {
    return stretchesOf(this.current.row);
  }

  /**
   * Leaves out many stretches in a row, then ever fewer.
   * @param {boolean} isBackward whether the last ones are left out first
   */
  async #dropChunks(isBackward) {
    let size = Math.ceil(this.#stretches().length / 2);
    for (;;) {
      for (let tried = 0; tried < this.#stretches().length;) {
        const all = this.#stretches();
        const at = isBackward ? Math.max(0, all.length - tried - size) : tried;
        if (!await this.#isBetter(stretchesWithout(all, at, size))) tried += size;
      }
      if (size <= 1) return;
      size = Math.ceil(size / 2);
    }
  }

  /**
   * Tries changes of each stretch.
   * @param {(stretches: Stretch[], at: number) => Stretch[][]} changesAt
   * @returns {Promise<boolean>} whether one was better
   */
  async #tryAll(changesAt) {
    let isBetter = false;
    for (let at = 0; at < this.#stretches().length;) {
      if (await this.#tryEach(changesAt(this.#stretches(), at))) isBetter = true;
      else at += 1;
    }
    return isBetter;
  }

  /** @param {Stretch[][]} rows @returns {Promise<boolean>} whether one was better; those behind it aren't tried */
  async #tryEach(rows) {
    for (const row of rows) {
      if (await this.#isBetter(row)) return true;
    }
    return false;
  }

  /**
   * Tries a row, and goes on from it if its run is shorter and fails in the same way.
   * @param {Stretch[]} stretches
   * @param {Measured["choices"]} [choices] of its agents, as far as they fit
   */
  async #isBetter(stretches, choices = this.current.choices) {
    const row = rowOf(stretches);
    const draws = stretchesOf(row).map((stretch) => `${stretch.agent}x${stretch.draws}`).join();
    const name = choices === undefined ? draws : `${draws} ${JSON.stringify(choices)}`;
    if (!this.known.has(name)) {
      if (!this.#goesOn()) return false;
      this.known.set(name, await this.#made(row, choices));
    }
    const found = this.known.get(name);
    if (found === undefined || !isShorter(found, this.current)) return false;
    // The shortest run will be made by workers that are started anew.
    this.group.beginAhead();
    this.current = found;
    return true;
  }

  /**
   * Makes a run by a row.
   * @param {number[]} row
   * @param {Measured["choices"]} choices
   * @returns {Promise<Measured | undefined>} undefined: it doesn't fail in the same way
   */
  async #made(row, choices) {
    const { seed, ending, detail } = this.first.outcome;
    const wantsLines = ending === "race" || UNSETTLED.test(detail);
    const wanted = { seed, whole: false, row, choices, wantsRow: true, isTrial: true, wantsLines };
    const run = await this.group.one(wanted);
    this.runs += 1;
    this.limits.onTry({ runs: this.runs, changes: Math.min(this.best.changes, this.current.changes) });
    return failsAlike(run, this.first) ? measured(run) : undefined;
  }

  #goesOn() {
    if (this.runs >= this.limits.most) this.stopped ??= "the most that are made";
    else if (performance.now() > this.until) {
      const seconds = this.limits.milliseconds / 1_000;
      this.stopped ??= `stopped after ${seconds} s, so a faster machine may find a shorter one`;
    }
    return this.stopped === undefined;
  }
}

/** @param {Stretch[]} stretches @param {number} at */
const droppedAt = (stretches, at) => [stretchesWithout(stretches, at, 1)];

/**
 * Looks for the shortest run that fails in the same way as one that was found by its seed.
 * @param {import("../run/group.mjs").Group} group of the same agents
 * @param {RunSummary} summary of the run that was found
 * @param {ShortenLimits} [limits]
 * @returns {Promise<ShortenResult>}
 */
export async function shorten(group, summary, limits = {}) {
  const begun = performance.now();
  const why = whyNot(summary);
  if (why !== undefined) return asFound(summary, { row: [] }, 0, why);
  const { seed, detail } = summary;
  const all = { most: MOST_RUNS, milliseconds: MOST_MILLISECONDS, onTry: () => {}, isFresh: false, ...limits };
  const how = summary.row === undefined ? {} : { row: summary.row, isExact: true };
  const times = timesOf(summary);
  let [first, made, isAgain] = [/** @type {One} */ ({}), 0, false];
  for (; made < times && !isAgain; made += 1) {
    const wanted = { seed, whole: true, wantsRow: true, isFresh: all.isFresh, needsTrace: UNSETTLED.test(detail) };
    first = await group.one({ ...wanted, ...how });
    isAgain = areSame(summary, first.outcome) && failsAlike(first, first);
  }
  if (!isAgain) return asFound(summary, first.outcome, made, notAgain(summary));
  const search = new Search(group, first, all, begun);
  await search.run();
  const { best, runs, stopped } = search;
  if (!isShorter(best, measured(first))) {
    return asFound(summary, first.outcome, runs - 1, "no shorter one was found", stopped);
  }
  const shortest = await remade(group, first, best);
  if (shortest === undefined) return asFound(summary, first.outcome, runs, notAgain(summary), stopped);
  const changes = { before: changesOf(first.outcome.row ?? []), after: best.changes };
  const shortened = { runs, changes, calls: { before: summary.calls, after: best.calls } };
  return { shortest, shortened: stopped === undefined ? shortened : { ...shortened, stopped } };
}

/** @param {Pick<Outcome, "real">} run @returns {number} how often it is made until it goes the same way */
const timesOf = ({ real }) => (real === undefined ? 1 : TIMES_TRIED);

/**
 * What is reported about a run that stays as it was found.
 * @param {RunSummary} summary
 * @param {Pick<Outcome, "row">} first
 * @param {number} runs
 * @param {string} unchanged why it stays so
 * @param {string} [stopped]
 * @returns {ShortenResult}
 */
function asFound({ calls }, { row = [] }, runs, unchanged, stopped) {
  const changes = changesOf(row);
  const both = { changes: { before: changes, after: changes }, calls: { before: calls, after: calls } };
  return { shortened: { runs, ...both, ...(stopped === undefined ? {} : { stopped }), unchanged } };
}

/**
 * Makes the shortest run once more, by workers that were started anew, as a replay will; all of it is reported.
 * @param {import("../run/group.mjs").Group} group
 * @param {One} first
 * @param {Measured} best
 * @returns {Promise<One | undefined>} undefined: it wasn't the same
 */
async function remade(group, first, { row, calls, choices }) {
  const { seed } = first.outcome;
  const wanted = { seed, whole: true, row, choices, isExact: true, wantsRow: true, needsTrace: true, isFresh: true };
  for (let left = timesOf(first.outcome); left > 0; left -= 1) {
    const run = await group.one(wanted);
    const isSame = run.outcome.calls === calls && firstOtherMove(row, run.outcome.row ?? []) === undefined;
    if (isSame && failsAlike(run, first)) return run;
  }
  return undefined;
}
