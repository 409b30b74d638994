// Tries every schedule of a module of agents: learns the agents, searches, checks what was learned, and shows what was
// found.

import { Refused } from "../options/refused.mjs";
import { preloads } from "../processes/preloads.mjs";
import { TIME_OVER, TimeOver, overAfter } from "../processes/time-over.mjs";
import { seedsWithout } from "../seeds/ranges.mjs";
import { Runs } from "../seeds/runs.mjs";
import { simulatorAt } from "../simulator/chosen.mjs";
import { Agreement } from "./agreement.mjs";
import { DRAWN_RUNS, coveringRuns, needScheduled } from "./covering-runs.mjs";
import { DoesOtherwise, Unlearned, beginAgain, learnAgain, learnApart } from "./learning/apart.mjs";
import { NotAsLearned } from "./not-as-learned.mjs";
import { OnlyRuns } from "./only-runs.mjs";
import { programOf } from "./search/file.mjs";
import { beginSearch } from "./proved.mjs";
import { comparedBySecond, needFound } from "./second-search.mjs";
import { endOf, explained, firstNotShown, shownFindings } from "./showing.mjs";

/** @typedef {import("./learning/learning-report.mjs").LearningReport} LearningReport */
/** @typedef {import("./showing.mjs").ShownFinding} ShownFinding */
/** @typedef {import("./proved.mjs").Thread} Thread */

/**
 * @typedef {import("../seeds/runs.mjs").RunsOptions & { within: number, states: number, agents?: number,
 * buffers?: number[], noBlock?: number[], covers?: boolean, each?: number | "any" }} EveryRunOptions `within` how many
 * seconds all may take, `states` how many states, and `covers` whether no seeds are asked for, so runs are made that go
 * over each edge
 */

/**
 * @typedef {object} EveryResult what came of it
 * @property {LearningReport | undefined} report undefined: nothing could be learned
 * @property {string | undefined} open why not every schedule was tried; undefined: every one was
 * @property {number} realRuns how many real runs agree with what was learned
 * @property {number} made how many there were
 * @property {import("../seeds/ranges.mjs").SeedRange[]} notRun the seeds of those for which there was no time
 * @property {import("./only-runs.mjs").OnlyRun[]} onlyRuns what they have shown and the search hasn't found
 * @property {import("./covering-runs.mjs").Covered} covered by real runs that go over the edges
 * @property {boolean} isProved whether the proved search has found the same: the report's result is its own then
 * @property {string | undefined} notProved why there was no proved search
 * @property {boolean} isCut whether there was no time for something of a search that is closed
 * @property {boolean} isFreshened whether each real run has loaded the modules anew though that wasn't asked for
 * @property {ShownFinding[]} shown what was found: each with the run that shows it, or with why none does
 * @property {number} milliseconds
 */

/** @typedef {Omit<EveryResult, "isFreshened" | "milliseconds">} TriedOnce */
/** @typedef {Pick<EveryResult, "realRuns" | "made" | "notRun" | "onlyRuns" | "covered">} RealRuns */

/** A real run of agents that never end is cut when one has made so many calls. */
export const CUT_AFTER = 100;

/** What there is of a search that isn't closed. */
const NOTHING = Object.freeze({
  realRuns: 0, made: 0, notRun: [], onlyRuns: [], covered: { runs: 0, edges: 0 }, isProved: false, notProved: undefined,
  isCut: false,
});

/** So much of the time a search may take: what comes behind it needs some, too. */
const SHARE_OF_SEARCH = 0.75;

const KNOWS_NO_OPERATIONS = "the proved search doesn't know the operations of objects";
const NOT_KNOWN = "It may go by chance, by a clock, or by something that isn't shown";
const PRELOADED = "not every schedule can be tried if --require or --import of node loads code first: nobody sees what "
  + "that keeps";
const NOT_AGAIN = "its time was over when all states were found, before each step was learned a second time";
const CHANGES_BUILTINS = "an agent changes the language's own objects, so what was learned may be wrong";

/**
 * @param {EveryRunOptions} options
 * @returns {import("../seeds/ranges.mjs").SeedRange} the seeds of the real runs that are drawn
 */
export const seedsOf = ({ covers, first, last }) => ({ first, last: covers ? first + DRAWN_RUNS - 1 : last });

export class Every {
  /**
   * @param {EveryRunOptions} options
   * @param {{ signal?: AbortSignal, over?: AbortSignal, job?: import("../seeds/runs.mjs").AnyJob }} how what ends it;
   * what is aborted when the time is over that all may take, if that has begun; the first job of the real runs, if it
   * has begun or is in this process
   */
  constructor(options, { signal, over = overAfter(options.within), job }) {
    this.options = options;
    this.signal = signal;
    this.over = over;
    this.begun = performance.now();
    this.job = job;
    /** Whether real runs are to go over each edge, and only a few are drawn. */
    this.covers = options.covers === true;
    /** How many states were found so far. */
    this.states = 0;
    /** @type {import("../seeds/job.mjs").CheckedOutcome[]} of the real runs */
    this.outcomes = [];
    /** @type {{ again: Thread, search: Thread | undefined } | undefined} */
    this.threads = undefined;
    /** Whether the agents' modules keep something from run to run. */
    this.keepsMore = false;
    /** @type {Pick<import("../run/group.mjs").GroupOptions, "cutAfter" | "chosenTime">} how real runs are made */
    this.how = { chosenTime: "anew" };
    this.isFreshened = false;
  }

  /** The seeds of the real runs that are drawn. */
  get seeds() {
    return seedsOf({ ...this.options, covers: this.covers });
  }

  /** @returns {Promise<EveryResult>} */
  async run() {
    if (preloads()) throw new Refused(PRELOADED);
    const tried = await this.#tried().catch((problem) => this.#triedFreshly(problem));
    return { ...tried, isFreshened: this.isFreshened, milliseconds: performance.now() - this.begun };
  }

  /**
   * Modules that keep something from run to run do as learned only if each run loads them anew.
   * @param {unknown} problem of the first try
   * @returns {Promise<TriedOnce>}
   */
  async #triedFreshly(problem) {
    if (!(problem instanceof NotAsLearned) || !this.keepsMore || this.options.fresh === true) throw problem;
    this.options = { ...this.options, fresh: true };
    this.isFreshened = true;
    this.job = undefined;
    return await this.#tried();
  }

  /** @returns {Promise<TriedOnce>} */
  async #tried() {
    let real = this.#begun(this.job);
    const ending = new AbortController();
    // These load what they need while the agents are learned.
    this.threads = { again: beginAgain(), search: this.options.sabsim ? undefined : beginSearch() };
    try {
      const report = await this.#report();
      if (typeof report === "string") return { report: undefined, open: report, ...NOTHING, shown: [] };
      this.keepsMore = report.renewals > 0;
      if (report.changesBuiltins) throw new NotAsLearned(CHANGES_BUILTINS);
      if (!report.isClosed) return await this.#open(report, openText(report));
      if (report.neverEnds || report.kept !== undefined) real = await this.#begunAnew(real, report);
      const again = this.#learnAgain(report);
      // The second learning knows more about why a run differs.
      const agreeing = this.#agreeing(report, real).catch((problem) => again.then(() => Promise.reject(problem)));
      const [{ result = report.result, why }, ofRuns] = await Promise.all([
        this.#second(report, ending.signal), agreeing, again,
      ]);
      const shown = await this.#shown(report);
      const proved = { isProved: why === undefined, notProved: why };
      const isCut = ofRuns.notRun.length > 0 || why === TIME_OVER || shown.some((each) => each.why === TIME_OVER);
      return { report: { ...report, result }, open: undefined, ...ofRuns, ...proved, isCut, shown };
    } catch (problem) {
      if (!(problem instanceof NotLearnedAgain)) throw problem;
      return await this.#open(problem.report, NOT_AGAIN);
    } finally {
      ending.abort();
      const { again, search } = this.threads;
      await Promise.all([real.runs.close(), again.stop(), search?.stop()]);
    }
  }

  /** @param {LearningReport} report @param {AbortSignal} ending */
  async #second({ file, findings, neverEnds, object, result }, ending) {
    if (object !== undefined) return { why: KNOWS_NO_OPERATIONS };
    const { sabsim } = this.options;
    const signal = AbortSignal.any([ending, this.#ending()]);
    const { search: thread } = this.threads ?? {};
    try {
      const second = await comparedBySecond(file, result, { program: sabsim || undefined, signal, thread });
      if (second.result !== undefined) needFound(findings, second.result, neverEnds);
      return second;
    } catch (problem) {
      if (!(problem instanceof TimeOver)) throw problem;
      return { why: TIME_OVER };
    }
  }

  /** @returns {AbortSignal} aborted when the time is over, or the caller ends all */
  #ending() {
    return this.signal === undefined ? this.over : AbortSignal.any([this.signal, this.over]);
  }

  /** What agents do before their first calls is searched in the order of the agents, so they begin in turn. */
  #ofRuns() {
    // A schedule of the search says who makes each call.
    const everywhere = this.covers || this.options.everywhere;
    const each = { everywhere, inTurn: true, isBrief: false, trace: true, checkEvery: 1 };
    return { ...this.options, ...this.seeds, ...this.how, ...each, sabsim: /** @type {false} */ (false) };
  }

  /**
   * Begins the real runs.
   * @param {import("../seeds/runs.mjs").AnyJob} [job] the first one
   * @returns {{ runs: Runs, running: Promise<void> }} settled when they are made
   */
  #begun(job) {
    const options = { ...this.#ofRuns(), wanted: { needsTrace: true } };
    const runs = new Runs(options, { signal: this.#ending(), job });
    this.outcomes = [];
    const running = this.#take(runs, this.outcomes);
    // If something else fails, nobody waits for the runs.
    running.catch(() => {});
    return { runs, running };
  }

  /**
   * Makes the real runs once more, now that it is known how they must go: of agents that never end each up to some
   * calls, and of agents that keep the time with clocks that go on.
   * @param {{ runs: Runs }} before
   * @param {LearningReport} report
   */
  async #begunAnew(before, { kept, neverEnds }) {
    if (neverEnds) this.how.cutAfter = CUT_AFTER;
    if (neverEnds) this.covers = false;
    if (kept !== undefined) this.how.chosenTime = "lasting";
    const [real] = await Promise.all([this.#begun(), before.runs.close()]);
    return real;
  }

  /**
   * @param {Runs} runs that end when the time is over
   * @param {import("../seeds/job.mjs").CheckedOutcome[]} outcomes gets theirs
   */
  async #take(runs, outcomes) {
    try {
      for await (const outcome of runs.outcomes()) outcomes.push(outcome);
    } catch (problem) {
      if (!(problem instanceof TimeOver)) throw problem;
    }
  }

  /** @returns {Promise<LearningReport | string>} a text: why nothing could be learned */
  async #report() {
    const { agents, args, buffers, each, module, noBlock, seconds, states, timeouts, within } = this.options;
    /** @type {"early" | "never"} */
    const choice = timeouts === "never" ? "never" : "early";
    const onProgress = (/** @type {number} */ found) => void (this.states = found);
    const search = Math.max(SHARE_OF_SEARCH * within - (performance.now() - this.begun) / 1_000, 0);
    const place = { agents, buffers, noBlock };
    const most = each === "any" ? Infinity : each;
    const { covers } = this;
    const wanted = { module, args, place, timeouts: choice, limit: states, within: search, each: most, covers };
    try {
      return await learnApart(wanted, { seconds, onProgress, signal: this.signal, over: this.over });
    } catch (problem) {
      if (problem instanceof DoesOtherwise) throw new NotAsLearned(problem.message);
      if (problem instanceof Unlearned) return problem.message;
      throw problem;
    }
  }

  /** @param {LearningReport} report */
  async #learnAgain(report) {
    const { each, edges, isShared, kept, nodes, plan } = report;
    const { over, options: { args, fresh, module, seconds, timeouts } } = this;
    const clocks = { isLasting: kept !== undefined, isEndless: timeouts === "never" };
    const given = { module, args, plan, isShared, isFresh: fresh === true, ...clocks, nodes, edges, each };
    const differs = await learnAgain(given, { seconds, over, thread: this.threads?.again });
    if (differs === TIME_OVER) throw new NotLearnedAgain(report);
    if (differs === undefined) return;
    throw new NotAsLearned("the code as it is written, loaded anew, does something else than was learned. "
      + `${differs}. ${NOT_KNOWN}`);
  }

  /**
   * Compares the real runs, those that were made first.
   * @param {LearningReport} report
   * @param {{ runs: Runs, running: Promise<void> }} real
   * @returns {Promise<RealRuns>} how many are ways through the automata, and what they alone have shown
   */
  async #agreeing(report, { running, runs }) {
    const { file, findings } = report;
    const agreement = new Agreement(programOf(file));
    const only = new OnlyRuns(findings, simulatorAt(this.options.sabsim || undefined));
    const early = this.outcomes.length;
    for (const outcome of this.outcomes.slice(0, early)) only.take(outcome, agreement.needs(outcome));
    await running;
    for (const outcome of this.outcomes.slice(early)) only.take(outcome, agreement.needs(outcome));
    const covered = await this.#cover(report, runs, (outcome) => {
      const isWay = agreement.needs(outcome);
      only.take(outcome, isWay);
      return isWay;
    });
    const made = this.outcomes.length;
    const onlyRuns = [...only.found.values()];
    return { realRuns: agreement.compared, made, notRun: this.#notRun(), onlyRuns, covered };
  }

  /**
   * @param {LearningReport} report
   * @param {Runs} runs that were made
   * @param {(outcome: import("./agreement.mjs").RealOutcome) => boolean} take
   */
  async #cover({ covering, findings, neverEnds }, runs, take) {
    const { maxMoves } = this.options;
    if (covering.length === 0 || neverEnds) return NOTHING.covered;
    const hasRace = findings.some(({ kind }) => kind === "race");
    return await coveringRuns(runs, covering, { first: this.seeds.last + 1, maxMoves }, (outcome) => {
      this.outcomes.push(outcome);
      const isWay = take(outcome);
      // With a race a real run may differ from the search.
      if (!hasRace) needScheduled(outcome);
      return isWay && outcome.divergence === undefined;
    });
  }

  /** @returns {import("../seeds/ranges.mjs").SeedRange[]} the seeds whose runs weren't made */
  #notRun() {
    const { first, last } = this.seeds;
    return seedsWithout([{ first, last }], this.outcomes.map(({ seed }) => ({ first: seed, last: seed })));
  }

  /**
   * @param {LearningReport} report
   * @param {string} open why not every schedule was tried
   * @returns {Promise<TriedOnce>}
   */
  async #open(report, open) {
    const shown = explained(await shownFindings(report.findings, this.#ofShown(report), this.#ending()));
    return { report, open, ...NOTHING, shown };
  }

  /** @param {LearningReport} report @returns {EveryRunOptions} of the runs that show what was found */
  #ofShown({ kept }) {
    return { ...this.options, chosenTime: kept === undefined ? "anew" : "lasting" };
  }

  /** @param {LearningReport} report that is closed */
  async #shown(report) {
    const found = await shownFindings(report.findings, this.#ofShown(report), this.#ending());
    const { finding, outcome } = firstNotShown(found) ?? {};
    if (finding === undefined || outcome === undefined) return explained(found);
    const { kind, text } = finding;
    const what = text === "" ? kind : `${kind} (${text})`;
    throw new NotAsLearned(`the search has found ${what}, but the run by its schedule ends so: ${endOf(outcome)}`);
  }
}

/** There was no time for the second learning. */
class NotLearnedAgain extends Error {
  /** @param {LearningReport} report of the first one */
  constructor(report) {
    super(NOT_AGAIN);
    this.report = report;
  }
}

/** @param {LearningReport} report that isn't closed @returns {string} */
function openText({ bound, depth, result: { states } }) {
  const why = bound === "time" ? "its time was over" : "there are more";
  return `all of up to ${depth ?? 0} acts were, ${states.toLocaleString("en-US")} states; ${why}`;
}
