// Real runs that together go over the edges of the automata, each by a schedule of the search.

import { TimeOver } from "../processes/time-over.mjs";
import { NotAsLearned } from "./not-as-learned.mjs";
import { endOf, whyNoRun } from "./showing.mjs";

/** @typedef {import("./learning/learning-report.mjs").CoveringRun} CoveringRun */
/** @typedef {import("./agreement.mjs").RealOutcome} RealOutcome */

/** @typedef {{ runs: number, edges: number }} Covered how many runs went as they had to, and over how many edges */

/** So many drawn runs are made besides. */
export const DRAWN_RUNS = 20;

/** @param {CoveringRun} run @param {{ maxMoves: number }} options @returns {boolean} whether a real run can go so */
const canBe = (run, options) => !run.spins && whyNoRun(run, options) === undefined;

/**
 * Makes the runs, in the first job of others that were made.
 * @param {import("../seeds/runs.mjs").Runs} runs
 * @param {CoveringRun[]} covering
 * @param {{ first: number, maxMoves: number }} options the first number of a seed that no other run has
 * @param {(outcome: RealOutcome) => boolean} take notes a run, and returns whether it was compared
 * @returns {Promise<Covered>}
 * @throws {NotAsLearned} if one doesn't go as it has to
 */
export async function coveringRuns(runs, covering, { first, maxMoves }, take) {
  const possible = covering.filter((run) => canBe(run, { maxMoves }));
  const wanted = possible.map(({ row, choices, isWhole }, at) =>
    ({ seed: first + at, whole: true, needsTrace: true, row, choices, isExact: isWhole }));
  const covered = { runs: 0, edges: 0 };
  let at = 0;
  try {
    await runs.further(wanted, (outcome) => {
      const { edges } = possible[at];
      at += 1;
      if (!take({ ...outcome, isCovering: true })) return;
      covered.runs += 1;
      covered.edges += edges;
    });
  } catch (problem) {
    if (!(problem instanceof TimeOver)) throw problem;
  }
  return covered;
}

/** @param {RealOutcome} outcome @throws {NotAsLearned} if the run didn't go by its schedule */
export function needScheduled(outcome) {
  if (outcome.divergence === undefined) return;
  throw new NotAsLearned(`a run by a schedule of the search goes otherwise: ${endOf(outcome)}`);
}
