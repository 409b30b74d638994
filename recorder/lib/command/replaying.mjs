// What replays of agents and of programs have in common. The run is made in this process, and kept if that is asked
// for. It is printed how it ended.

import { readFileSync } from "node:fs";
import { createRequire } from "node:module";
import { basename } from "node:path";
import { keepBesides } from "../keeping/kept-besides.mjs";
import { RunStore } from "../keeping/run-store.mjs";
import { Refused } from "../options/refused.mjs";
import { preloads } from "../processes/preloads.mjs";
import { Job } from "../seeds/job.mjs";
import { OTHER_INPUT } from "../run/words/summary-words.mjs";
import { Runs } from "../seeds/runs.mjs";
import { NoLongerTheSame } from "../shorter/differing.mjs";
import { chosenProgram, simulatorAt } from "../simulator/chosen.mjs";
import { print } from "./print.mjs";
import { summaryText } from "./summary-text.mjs";
import { Summary } from "./summary.mjs";

// A debugger holds agents for as long as somebody looks at them.
const DEBUGGED_SECONDS = 3_600;

/** @param {string} file @returns {string} what is in it */
export function keptRunText(file) {
  try {
    return readFileSync(file, "utf8");
  } catch (error) {
    throw new Refused(`--replay ${file} can't be read: ${/** @type {Error} */ (error).message}`);
  }
}

/** @returns {boolean} whether a debugger may be attached to this process */
function isDebugged() {
  try {
    return createRequire(import.meta.url)("node:inspector").url() !== undefined;
  } catch {
    // A node without an inspector can't be debugged.
    return false;
  }
}

export class Replaying {
  /**
   * @param {import("./options.mjs").CommandOptions} options
   * @param {string} file that is replayed
   * @param {string} module the URL of what is run
   */
  constructor(options, file, module) {
    this.options = options;
    this.file = file;
    this.module = module;
    /** @type {string | false | undefined} */
    this.sabsim = options.checkEvery === 0 ? false : chosenProgram(options.sabsim);
    this.simulator = simulatorAt(this.sabsim || undefined);
    /** @type {RunStore | undefined} */
    this.keeper = undefined;
  }

  /** @param {RegExp} ending of the file's name, which the names of the files that are kept don't have */
  keepsAs(ending) {
    const { options: { out }, file } = this;
    if (out !== undefined) this.keeper = new RunStore(out, "--out", `${basename(file).replace(ending, "")}.replayed`);
  }

  /**
   * Makes the run, keeps it if that is asked for, and prints how it ended.
   * @returns {Promise<{ failed: boolean, problems: unknown[] }>} whether it failed
   * @throws {NoLongerTheSame}
   */
  async run() {
    const outcome = await this.made();
    const difference = this.differenceOf(outcome);
    if (difference !== undefined) {
      throw new NoLongerTheSame(outcome.real === undefined ? difference : `${difference}; or ${OTHER_INPUT}`);
    }
    const { options: { ordinary, races, unrecorded }, sabsim, simulator } = this;
    const checkedBy = sabsim === false ? undefined : simulator.version;
    const summary = new Summary({ ordinary, races, unrecorded, checkedBy, preloads: preloads() });
    summary.add(outcome);
    const lines = this.titles().map((line) => `${line}\n`).join("");
    const ending = this.keeper === undefined ? {} : this.kept(outcome, this.keeper);
    await print(`${lines}${summaryText(summary.data(ending))}`);
    return { failed: outcome.fails, problems: [] };
  }

  /** @returns {Promise<import("../seeds/job.mjs").CheckedOutcome>} the run's outcome */
  async made() {
    throw new Error("nothing is replayed");
  }

  /**
   * How a run differs from the one that was kept.
   * @param {import("../seeds/job.mjs").CheckedOutcome} _outcome
   * @returns {string | undefined} undefined: it is the same
   */
  differenceOf(_outcome) {
    return undefined;
  }

  /** @returns {string[]} what is said before the summary */
  titles() {
    return [];
  }

  /**
   * @param {import("../seeds/job.mjs").CheckedOutcome} outcome
   * @param {RunStore} keeper
   * @returns {import("./summary.mjs").SummaryEnd} where its files are
   */
  kept(outcome, keeper) {
    const { module, options, simulator } = this;
    keeper.keepFirst(outcome);
    const { notKept, notes } = keepBesides(keeper, outcome, { ...options, module }, simulator);
    return { kept: keeper.kept(notes), notKept };
  }

  /**
   * Makes the one run.
   * @param {number} seed
   * @param {object} options of it
   * @returns {Promise<import("../seeds/job.mjs").CheckedOutcome>}
   */
  async one(seed, options) {
    const long = { seconds: DEBUGGED_SECONDS, loadSeconds: DEBUGGED_SECONDS };
    const limits = isDebugged() ? long : { seconds: this.options.seconds };
    const only = { first: seed, last: seed, jobs: 1, fresh: false, trace: true };
    const checking = { sabsim: this.sabsim, checkEvery: 1 };
    const all = { ...this.options, ...limits, ...only, ...checking, ...options };
    const runs = new Runs(/** @type {any} */ (all), { job: new Job() });
    try {
      return /** @type {any} */ ((await runs.outcomes().next()).value);
    } finally {
      await runs.close();
    }
  }
}
