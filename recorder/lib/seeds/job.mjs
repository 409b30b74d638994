// One job: a group of workers, and the checks of its runs. The checks are made in this thread, while the group makes
// the next runs in its own. In the library a single job is in this process: so it can call the caller's functions with
// the buffers, and no process has to be started. It is used as a `RemoteJob` is.

import { checkedBy } from "../check/check.mjs";
import { CheckedRuns } from "../check/checked-runs.mjs";
import { Group } from "../run/group.mjs";
import { FirstFailing } from "../run/order.mjs";
import { simulatorAt } from "../simulator/chosen.mjs";
import { ModuleSimulator } from "../simulator/module.mjs";
import { KeepsGlobals, keepsGlobals, otherInputText } from "./first-again.mjs";

/** @typedef {import("../run/outcome.mjs").Outcome} Outcome */
/**
 * @typedef {{ divergence?: import("../board/drawn-schedule.mjs").Divergence, acts?: string }} Besides `acts` is a
 * digest of what was done
 */
/** @typedef {Outcome & import("../check/check.mjs").Check & Besides} CheckedOutcome */

/** Why a failing run isn't checked if its job's process was ended before. */
const NOT_CHECKED = "the process of its job ended before it was checked";

/**
 * @typedef {object} CheckOptions
 * @property {number} checkEvery one in how many of the runs that don't fail is checked, and has a script
 * @property {boolean} checks whether runs that have a script are checked
 * @property {string} [sabsim] the path of the native program that checks them; undefined: the module does
 * @property {boolean} [shortens] whether the first failing run will be shortened, by agents with other workers
 * @property {boolean} [isBrief] whether only the outcomes of runs that may be the first failing one have their long
 * texts
 */

/**
 * @typedef {object} ShortenedByJob
 * @property {CheckedOutcome} [shortest] undefined: the run stays as it was found
 * @property {import("../shorter/shorten.mjs").Shortened} shortened
 */

/** @typedef {"row" | "choices" | "bytes" | "answers" | "script" | "report"} LongTextOfCalls */
/** @typedef {"trace" | "accesses" | "sources" | "tasks" | "messages"} LongTextOfTrace */

/**
 * What a job hands on of a run that can't be the first failing one, if the options say that outcomes are brief.
 * @typedef {Omit<CheckedOutcome, LongTextOfCalls | LongTextOfTrace>} LightOutcome
 */

/** @type {Record<keyof LightOutcome, true>} */
const LIGHT = Object.freeze({
  seed: true, ending: true, fails: true, detail: true, moves: true, calls: true, ordinary: true, progress: true,
  state: true, races: true, noScript: true, unrecorded: true, real: true, onlyIf: true, onlyByTime: true, served: true,
  windows: true, standing: true, failure: true, scriptHolds: true, acts: true, noTrace: true, threads: true,
  checked: true, unchecked: true, divergence: true,
});

/** @param {CheckedOutcome} outcome @returns {LightOutcome} what it has without its long texts */
const lightOf = (outcome) =>
  /** @type {any} */ (Object.fromEntries(Object.entries(outcome).filter(([name]) => Object.hasOwn(LIGHT, name))));

/**
 * Opens a group. What only whole programs need is loaded only for these.
 * @param {import("../run/group.mjs").GroupOptions} options
 * @param {() => void} meanwhile
 * @returns {Promise<Group>}
 */
async function openGroup(options, meanwhile) {
  const Own = options.program === undefined ? Group : (await import("../program/program-group.mjs")).ProgramGroup;
  return Own.open(options, meanwhile);
}

export class Job {
  /** @type {Promise<Group> | undefined} */
  #group;

  /** @type {import("../simulator/chosen.mjs").ChosenSimulator | undefined} */
  #simulator;

  /** @type {CheckedRuns | undefined} undefined: each run is replayed, since the module isn't asked */
  #repeats;

  /** @type {unknown} why a check has failed, or why a run is no finding */
  #failure;

  #every = 1;
  #isBrief = false;
  #shortens = false;
  #firstFailing = new FirstFailing();

  /** @type {number | undefined} the seed of the run that may be the first failing one */
  #first;

  /**
   * Starts its workers.
   * @param {import("../run/group.mjs").GroupOptions & CheckOptions} options
   */
  async open(options) {
    const { checks, checkEvery, sabsim, isBrief = false, shortens = false } = options;
    this.#simulator = checks ? simulatorAt(sabsim) : undefined;
    this.#repeats = this.#simulator instanceof ModuleSimulator ? new CheckedRuns() : undefined;
    this.#every = checkEvery;
    this.#isBrief = isBrief;
    this.#shortens = shortens;
    this.#group = openGroup(options, () => this.#simulator?.prepare());
    await this.#group;
  }

  /**
   * Makes runs, and checks them.
   * @param {import("../run/outcome.mjs").WantedRun[]} seeds
   * @param {(outcome: CheckedOutcome) => void} onOutcome
   * @param {(outcome: CheckedOutcome) => void} [onFailing] is called for a failing run before it is checked, and before
   * the next run begins
   * @returns {Promise<void>} fails if a check has failed, and the outcome of that run is the last one; also if a
   * program keeps something in globals
   */
  async run(seeds, onOutcome, onFailing = () => {}) {
    const group = await this.#opened();
    /** @param {Outcome} outcome @param {CheckedOutcome} as */
    const brief = ({ seed }, as) => (!this.#isBrief || seed === this.#first ? as : lightOf(as));
    await group.run(seeds, (outcome, judgement, aside) => {
      if (this.#failure !== undefined) return;
      const checked = this.#checked({ outcome, judgement, aside });
      if (checked !== undefined) onOutcome(brief(outcome, checked));
    }, (outcome) => {
      // Only the first failing run is kept, and a job's seeds ascend.
      const isFirst = this.#firstFailing.takes(outcome);
      if (isFirst) this.#first = outcome.seed;
      if (isFirst && this.#shortens) group.beginAhead();
      onFailing(brief(outcome, { ...outcome, checked: false, unchecked: NOT_CHECKED }));
    });
    if (this.#failure !== undefined) throw this.#failure;
  }

  /**
   * Looks for the shortest run that fails as one that was found, and checks it.
   * @param {import("../run/same.mjs").RunSummary} summary the summary of that run
   * @param {(tried: import("../shorter/shorten.mjs").ShortenProgress) => void} onTry
   * @returns {Promise<ShortenedByJob>} fails if the check has failed
   */
  async shorten(summary, onTry) {
    const { shorten } = await import("../shorter/shorten.mjs");
    const { shortest, shortened } = await shorten(await this.#opened(), summary, { onTry, isFresh: true });
    return { shortest: shortest && checkedBy(this.#simulator, shortest), shortened };
  }

  /** Ends its workers. */
  async close() {
    // A group that couldn't be opened has ended all that it had started.
    const group = await this.#group?.catch(() => undefined);
    await group?.close();
  }

  /** @returns {Promise<Group>} */
  #opened() {
    return this.#group ?? Promise.reject(new Error("the job wasn't opened"));
  }

  /** @param {import("../run/outcome.mjs").One} run @returns {CheckedOutcome | undefined} undefined: it is no finding */
  #checked(run) {
    try {
      const { outcome, aside: { divergence, again } } = run;
      const isReal = outcome.real !== undefined;
      const keeps = isReal ? undefined : keepsGlobals(outcome, again);
      if (keeps !== undefined) throw keeps;
      const checked = checkedBy(this.#simulator, run, this.#every, this.#repeats);
      const besides = isReal ? otherInputText(outcome, again) : "";
      const detail = [checked.detail, besides].filter((text) => text !== "").join("\n");
      return { ...checked, detail, ...(divergence === undefined ? {} : { divergence }) };
    } catch (failure) {
      this.#failure = failure;
      return failure instanceof KeepsGlobals ? undefined : { ...run.outcome, checked: false };
    }
  }
}
