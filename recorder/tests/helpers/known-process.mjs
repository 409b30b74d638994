// A process that runs known programs, one after the other, each by a group in this process: so no process is started
// for a program, and few outcomes go from process to process. What it is asked for is in `known.test.mjs`.

import { checkedBy } from "../../lib/check/check.mjs";
import { CheckedRuns } from "../../lib/check/checked-runs.mjs";
import { Group } from "../../lib/run/group.mjs";
import { simulatorAt } from "../../lib/simulator/chosen.mjs";
import { CHECKER } from "./needs.mjs";
import { lasting } from "./recorded.mjs";

/** @typedef {import("../../lib/seeds/job.mjs").CheckedOutcome} CheckedOutcome */
/** @typedef {import("../../lib/run/outcome.mjs").Aside} Aside */
/** @typedef {import("../../lib/run/outcome.mjs").Judgement} Judgement */

/**
 * @typedef {object} Question
 * @property {string} module the URL of the program
 * @property {number} seeds how many seeds are run, from 1 on
 * @property {number} checkEvery one in so many runs has all members and is checked
 * @property {number} judged how many seeds are run once more, each with its trace
 * @property {number} again how many of these are made once more by their rows
 */

/**
 * @typedef {object} Made what is demanded of a run
 * @property {number} seed
 * @property {string} ending
 * @property {string[][]} races for each race its two lines of code
 * @property {boolean} isWhole whether it has all members
 * @property {boolean} checked
 * @property {string | undefined} scriptHolds
 * @property {string | undefined} noScript
 */

/**
 * @typedef {{ outcome: CheckedOutcome, judgement?: Judgement, divergence: Aside["divergence"] }} Judged all that is
 * known of a run
 */

/** @param {CheckedOutcome} outcome @returns {Made} */
const madeOf = ({ seed, ending, races, bytes, checked, scriptHolds, noScript }) =>
  ({ seed, ending, races: races.map(({ lines }) => lines), isWhole: bytes !== undefined, checked, scriptHolds,
    noScript });

/** @type {(outcome: CheckedOutcome, judgement: Judgement | undefined, aside: Aside) => Judged} */
const judgedOf = (outcome, judgement, { divergence }) => ({ outcome, judgement: lasting(judgement), divergence });

/** The runs of a program. */
class Runs {
  #simulator = simulatorAt(CHECKER);

  // The native program is asked about each run.
  #repeats = CHECKER === undefined ? new CheckedRuns() : undefined;

  /** @param {Group} group @param {number} every */
  constructor(group, every) {
    this.group = group;
    this.every = every;
  }

  /**
   * Makes runs, checks them, and makes something of each.
   * @template Kept
   * @param {import("../../lib/run/outcome.mjs").WantedRun[]} wanted
   * @param {(outcome: CheckedOutcome, judgement: Judgement | undefined, aside: Aside) => Kept} keep
   * @returns {Promise<Kept[]>}
   */
  async made(wanted, keep) {
    /** @type {Kept[]} */
    const kept = [];
    await this.group.run(wanted, (outcome, judgement, aside) => {
      const checked = checkedBy(this.#simulator, { outcome, judgement, aside }, this.every, this.#repeats);
      kept.push(keep(checked, judgement, aside));
    });
    return kept;
  }
}

/**
 * How the runs of a program end, a few runs with all that is known of them, and some of these made by their rows.
 * @param {Question} question
 * @returns {Promise<{ made: Made[], judged: Judged[], forced: Judged[] }>}
 */
async function answerTo({ module, seeds, checkEvery, judged: most, again }) {
  const options = { module, args: [], maxMoves: 100_000, seconds: 5, fresh: false };
  const group = await Group.open(options, () => simulatorAt(CHECKER).prepare());
  try {
    const runs = new Runs(group, checkEvery);
    const wanted = Array.from({ length: seeds }, (_, at) => ({ seed: at + 1, whole: at % checkEvery === 0 }));
    const made = await runs.made(wanted, madeOf);
    const whole = { whole: true, needsTrace: true, wantsRow: true };
    const judged = await runs.made(wanted.slice(0, most).map(({ seed }) => ({ ...whole, seed })), judgedOf);
    const rows = judged.slice(0, again).map(({ outcome: { seed, row } }) => ({ ...whole, seed, row, isExact: true }));
    return { made, judged, forced: await runs.made(rows, judgedOf) };
  } finally {
    await group.close();
  }
}

process.on("disconnect", () => process.exit());
process.on("message", async (question) => {
  try {
    process.send?.(await answerTo(question));
  } catch (error) {
    process.send?.({ fault: error instanceof Error ? error.stack : String(error) });
  }
});
