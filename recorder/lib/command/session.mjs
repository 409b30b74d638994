// What the command line does: many runs, a summary of them, and the first failing one kept.

import { setImmediate as turn } from "node:timers/promises";
import { Difference } from "../check/difference.mjs";
import { RunStore, missingFiles } from "../keeping/run-store.mjs";
import { Refused } from "../options/refused.mjs";
import { collectGarbage, onceMore, stopGrowth } from "../processes/garbage.mjs";
import { preloads } from "../processes/preloads.mjs";
import { TimeOver } from "../processes/time-over.mjs";
import { isFirstOfAll } from "../run/order.mjs";
import { rangesText, seedsWithout } from "../seeds/ranges.mjs";
import { Runs } from "../seeds/runs.mjs";
import { chosenProgram, simulatorAt } from "../simulator/chosen.mjs";
import { requestedRunsOf } from "./requested-runs.mjs";
import { formatted } from "./formats.mjs";
import { Interrupted, Interruption } from "./interruption.mjs";
import { print } from "./print.mjs";
import { messageOf } from "./problems.mjs";
import { Progress } from "./progress.mjs";
import { FORM } from "./summary-form.mjs";
import { Summary } from "./summary.mjs";

/** @typedef {import("../seeds/job.mjs").CheckedOutcome} CheckedOutcome */

/** How the detail of a run begins in which an agent didn't come back. */
const HANGS = /^agent \d+ has made no call for /;

/** After so many of these, no more runs are made with --all. */
const MOST_HUNG = 2;

/** With --all no more runs are made, since one fails and one hangs. */
class RunsHang extends Error {
  constructor() {
    super("ended, since runs fail and hang");
  }
}

/** @param {unknown} problem @returns {boolean} whether it isn't only why there are no more runs */
const isToReport = (problem) =>
  !(problem instanceof Interrupted || problem instanceof TimeOver || problem instanceof RunsHang);

/** @param {number} seed of the first failing run, if none is kept */
const notKeptText = (seed) => `not kept: the run of seed ${seed}; --out DIR keeps it, with a page that shows it`;

export class Session {
  /**
   * @param {import("./options.mjs").CommandOptions} options
   * @param {string} module its URL
   * @param {import("../seeds/runs.mjs").AnyJob} [job] the first one, if it has begun
   */
  constructor(options, module, job) {
    const isPreloaded = preloads();
    this.asked = requestedRunsOf(options, module, isPreloaded);
    const isChecked = options.checkEvery > 0;
    const sabsim = isChecked ? chosenProgram(options.sabsim) : undefined;
    this.simulator = simulatorAt(sabsim);
    this.options = { ...options, module, sabsim };
    this.wanted = options.last - options.first + 1;
    this.keeper = options.out === undefined ? undefined : new RunStore(options.out);
    this.summary = new Summary({
      ordinary: options.ordinary, races: options.races, unrecorded: options.unrecorded, preloads: isPreloaded,
      checkedBy: isChecked ? this.simulator.version : undefined,
    });
    /** @type {string[]} what isn't kept, and why */
    this.leftOut = [];
    /** @type {string[]} what a reader of the kept files must know */
    this.notes = [];
    this.progress = new Progress(this.wanted);
    this.interruption = new Interruption();
    /** @type {Promise<void> | undefined} settled when nothing is left of the jobs */
    this.closed = undefined;
    const shortens = options.shorten && this.keeper !== undefined;
    const how = { isBrief: true, shortens, goesOn: true, origin: options.asked.first };
    /** @type {import("../seeds/ranges.mjs").SeedRange[]} the seeds of the runs that were made */
    this.made = [];
    /** In how many of them an agent didn't come back. */
    this.hung = 0;
    const { every, over, ...ofRuns } = this.options;
    const ending = [this.interruption.signal, ...(over === undefined ? [] : [over])];
    this.runs = new Runs({ ...ofRuns, ...how }, { signal: AbortSignal.any(ending), job });
  }

  /**
   * Makes the runs, keeps what is to be kept, and prints the summary, also if not all runs could be made.
   * @returns {Promise<{ failed: boolean, problems: unknown[] }>} whether a run failed; what else went wrong
   */
  async run() {
    /** @type {unknown[]} */
    const problems = [];
    /** @param {() => unknown} step */
    const attempt = async (step) => {
      try {
        await step();
      } catch (problem) {
        problems.push(problem);
      }
    };
    if (this.options.kind.followsNode) await attempt(() => this.#noteNode());
    await attempt(() => this.#record());
    const [stopped] = problems;
    this.progress.clear();
    await attempt(() => this.#keepMore(stopped));
    await attempt(() => this.#print(stopped, problems));
    await attempt(() => this.closed);
    await attempt(() => this.interruption.end());
    const isLeft = (/** @type {unknown} */ problem) => problem instanceof Interrupted || isToReport(problem);
    return { failed: this.summary.failed > 0, problems: problems.filter(isLeft) };
  }

  /** Notes whether programs were tried on this node. */
  async #noteNode() {
    const { untriedVersion } = await import("../processes/node-versions.mjs");
    const version = untriedVersion();
    if (version !== undefined) this.summary.untriedNodes.add(version);
  }

  /** Makes the runs, looks for the shortest one that fails as the one that is kept, and shows what a program prints. */
  async #record() {
    collectGarbage();
    stopGrowth();
    const { runs, summary } = this;
    try {
      for await (const outcome of runs.outcomes()) if (this.#isLast(outcome)) break;
      summary.remembers = await runs.firstAgain();
      await this.#shorten();
      const failing = this.#failing();
      if (failing !== undefined && failing.seed === this.keeper?.seed) {
        await runs.showOutput(failing, summary.shortened?.shortest);
      }
    } finally {
      this.closed = runs.close();
    }
  }

  /** Looks for the shortest run that fails as the one that is kept, which it then replaces. */
  async #shorten() {
    const { runs, summary } = this;
    const found = this.#toShorten();
    if (found === undefined) return;
    const shortening = runs.shorten(found, (tried) => this.progress.showShortening(found.seed, tried));
    [summary.shortened] = await Promise.all([shortening, this.#prepare()]);
    const { shortest } = summary.shortened;
    if (shortest !== undefined) this.keeper?.keepShortest(found, shortest);
  }

  /**
   * Adds a run's outcome to the summary, and keeps the run if it is to be kept.
   * @param {CheckedOutcome} outcome
   * @returns {boolean} whether it is the last one
   */
  #isLast(outcome) {
    const { keeper, options: { every, failFast }, progress, summary } = this;
    summary.add(outcome);
    this.made.push({ first: outcome.seed, last: outcome.seed });
    progress.show(summary);
    if (outcome.fails) keeper?.keepFirst(outcome);
    onceMore();
    if (every !== undefined && this.#hangs(outcome)) throw new RunsHang();
    return failFast === true && isFirstOfAll(outcome);
  }

  /**
   * @param {CheckedOutcome} outcome that the summary has
   * @returns {boolean} whether runs hang, so that further ones take long, and wouldn't change the status
   */
  #hangs({ detail }) {
    if (HANGS.test(detail)) this.hung += 1;
    const { hung, summary: { failed } } = this;
    return failed > 0 && hung > 0 && (failed > hung || hung >= MOST_HUNG);
  }

  /** Prepares the pictures of the run that is kept, while its job works. */
  async #prepare() {
    // The work of the job comes first.
    await turn();
    this.simulator.prepare();
  }

  /** The first failing run. */
  #failing() {
    // All that is reported about the run is known here, where it was made.
    return /** @type {CheckedOutcome | undefined} */ (this.summary.failing);
  }

  /** The failing run that is kept, if it is to be shortened. */
  #toShorten() {
    const failing = this.#failing();
    if (!this.options.shorten || failing === undefined || failing.seed !== this.keeper?.seed) return undefined;
    this.progress.clear();
    return failing;
  }

  /**
   * Keeps what is made from the runs when they are over.
   * @param {unknown} stopped why not all were made, if so
   */
  async #keepMore(stopped) {
    const { keeper, summary: { shortened } } = this;
    const failing = this.#failing();
    if (keeper === undefined) {
      if (failing !== undefined) this.leftOut.push(notKeptText(failing.seed));
      return;
    }
    if (stopped instanceof Difference) {
      const { outcome, replayed, judged } = stopped;
      keeper.keepDiffering(outcome, { "sabsim-report": replayed, "sabsim-verdict": judged });
    } else if (failing !== undefined && keeper.seed === failing.seed) {
      const outcome = shortened?.shortest ?? failing;
      const { keepBesides } = await import("../keeping/kept-besides.mjs");
      const { notKept, notes } = keepBesides(keeper, outcome, this.options, this.simulator);
      this.leftOut.push(...notKept, ...missingFiles(outcome));
      this.notes.push(...notes);
    } else if (failing !== undefined) {
      this.leftOut.push(...missingFiles(failing));
    }
  }

  /** @param {unknown} stopped why not all runs were made, if so @param {unknown[]} problems all that went wrong */
  async #print(stopped, problems) {
    if (this.#isWithoutSummary(stopped)) return;
    const stop = stopped === undefined ? null : { why: this.#whyStopped(stopped), wanted: this.wanted };
    await print(formatted(this.#data(stop, problems), this.options.format));
  }

  /** @param {unknown} stopped @returns {string} as it is said before how many runs were made */
  #whyStopped(stopped) {
    if (stopped instanceof Interrupted) return stopped.message;
    if (!(stopped instanceof TimeOver || stopped instanceof RunsHang)) return "stopped";
    const { first, last } = this.options;
    return `${stopped.message}, with the ${rangesText(seedsWithout([{ first, last }], this.made))} not run,`;
  }

  /**
   * Whether no summary is printed, since what went wrong says all. One in JSON reports that itself, and can be joined
   * to those of other shards.
   * @param {unknown} stopped why not all runs were made, if so
   */
  #isWithoutSummary(stopped) {
    const { options: { format }, summary } = this;
    if (stopped === undefined || stopped instanceof Interrupted || summary.runs > 0) return false;
    if (stopped instanceof TimeOver) return false;
    return format === "plain" || stopped instanceof Refused;
  }

  /**
   * @param {import("./summary-data.mjs").Stop | null} stopped
   * @param {unknown[]} problems
   * @returns {import("./summary-form.mjs").WholeSummary}
   */
  #data(stopped, problems) {
    const { keeper, notes, options: { first, last } } = this;
    const kept = keeper?.kept(notes) ?? null;
    const data = this.summary.data({
      stopped,
      kept,
      notKept: this.leftOut,
      problems: problems.filter(isToReport).map(messageOf),
    });
    const { every } = this.options;
    return { summary: FORM, asked: this.asked, seeds: [{ first, last }], ...(every && { every }), ...data };
  }
}
