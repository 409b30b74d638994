// Shows what a search has found by runs of the code as it is, in real workers: each goes by the schedule that leads
// there.

import { MOST_CHOICES } from "../../script/choices.mjs";
import { SCRIPT_LIMITS } from "../../script/limits.mjs";
import { TIME_OVER } from "../processes/time-over.mjs";
import { countText, digits } from "../run/words/summary-words.mjs";
import { Job } from "../seeds/job.mjs";

/** @typedef {import("./learning/findings.mjs").Finding} Finding */
/** @typedef {import("../seeds/job.mjs").CheckedOutcome} CheckedOutcome */

/**
 * @typedef {object} ShownFinding
 * @property {Finding} finding
 * @property {CheckedOutcome} [outcome] of the run by its schedule, if there was one
 * @property {boolean} isSame whether that run fails in the same way
 * @property {string} [why] why no run shows it, if none does
 */

/** So many are shown. */
export const MOST_SHOWN = 20;

const NO_MORE = `only the first ${MOST_SHOWN} are shown by runs`;
const AFTER_RACE = "with a race a real run may differ from the search";
const SPINS = "a real run can't change agents in a loop of ordinary reads";

/**
 * @param {import("./learning/run-of-way.mjs").RunOfWay} run
 * @param {{ maxMoves: number }} options of runs
 * @returns {string | undefined} why no run can go by its schedule
 */
export function whyNoRun({ calls, choices, lastChooser, row }, { maxMoves }) {
  const most = calls.reduce((one, other) => Math.max(one, other));
  if (most > SCRIPT_LIMITS.calls) return `it needs ${countText(most, "call")} of agent ${calls.indexOf(most)}`;
  const chooser = choices.findIndex(({ length }) => length > MOST_CHOICES);
  if (chooser >= 0) return `it needs ${countText(choices[chooser].length, "choice")} of agent ${chooser}`;
  if (lastChooser !== undefined) return `agent ${lastChooser} throws or chooses for ever then, whatever it chooses`;
  if (row.length > maxMoves) return `it needs ${countText(row.length, "move")}, and ${digits(maxMoves)} are the most`;
  return undefined;
}

/**
 * @param {Finding[]} findings
 * @param {import("../seeds/runs.mjs").RunsOptions} options of the runs
 * @param {AbortSignal} over aborted when there is no more time for it
 * @returns {Promise<ShownFinding[]>} all of them, the first ones with their runs
 */
export async function shownFindings(findings, options, over) {
  const first = findings.slice(0, MOST_SHOWN).filter((finding) => whyNoRun(finding, options) === undefined);
  const outcomes = first.length === 0 || over.aborted ? [] : await outcomesOf(first, options, over);
  return findings.map((finding, at) => {
    const outcome = outcomes[first.indexOf(finding)];
    if (outcome !== undefined) return { finding, outcome, isSame: isShownBy(finding, outcome), why: undefined };
    const why = at < MOST_SHOWN ? whyNoRun(finding, options) ?? TIME_OVER : NO_MORE;
    return { finding, outcome, isSame: false, why };
  });
}

/**
 * @param {Finding[]} findings
 * @param {import("../seeds/runs.mjs").RunsOptions} options
 * @param {AbortSignal} over
 * @returns {Promise<CheckedOutcome[]>} of the runs by their schedules, as far as there is time for them
 */
async function outcomesOf(findings, options, over) {
  const wanted = findings.map(({ choices, row, goesOn }, at) =>
    ({ seed: at + 1, whole: true, needsTrace: true, wantsRow: true, row, choices, isExact: !goesOn }));
  const stopped = new Promise((done) => {
    over.addEventListener("abort", () => done(undefined));
  });
  const job = new Job();
  /** @type {CheckedOutcome[]} */
  const outcomes = [];
  const make = async () => {
    const { sabsim, checkEvery } = options;
    const checking = { checkEvery: 1, checks: checkEvery > 0, sabsim: sabsim || undefined };
    await job.open({ ...options, inTurn: true, everywhere: true, trace: true, ...checking });
    await job.run(wanted, (outcome) => void outcomes.push(outcome));
  };
  try {
    await Promise.race([make(), stopped]);
  } finally {
    await job.close();
  }
  return [...outcomes];
}

/** @param {ShownFinding[]} found @returns {boolean} whether a run shows a race */
const isRaceShown = (found) => found.some(({ finding: { kind }, isSame }) => kind === "race" && isSame);

/** @param {ShownFinding} shown @returns {boolean} whether its run stays in a loop of reads */
const isHeldUp = ({ finding, outcome }) => finding.spins && outcome?.ending === "limit";

/**
 * Behind a race, real runs may differ from a search that makes all accesses of a segment at once. So if a race is
 * shown, nothing else has to be. The first race has none before it, so it has to be shown, unless a real run goes on in
 * a loop of reads, where a search changes agents.
 * @param {ShownFinding[]} found
 * @returns {ShownFinding | undefined} the first whose run has to show it and doesn't
 */
export function firstNotShown(found) {
  if (isRaceShown(found)) return undefined;
  return found.find((each) => each.outcome !== undefined && !each.isSame && !isHeldUp(each));
}

/** @param {ShownFinding[]} found @returns {ShownFinding[]} each that no run shows with the reason */
export function explained(found) {
  const hasRace = isRaceShown(found);
  return found.map((each) => {
    const { isSame, outcome } = each;
    if (isSame || outcome === undefined) return each;
    if (hasRace) return { ...each, why: AFTER_RACE };
    return { ...each, why: isHeldUp(each) ? SPINS : `the run by its schedule ends so: ${endOf(outcome)}` };
  });
}

/** @param {Pick<CheckedOutcome, "detail" | "ending">} outcome @returns {string} how its run ended, in a line */
export const endOf = ({ detail, ending }) => (detail === "" ? ending : `${ending}, ${detail.split("\n")[0]}`);

/** @param {string} text @returns {string} without its numbers */
export const plain = (text) => text.replace(/-?\d+/g, "#");

/** @param {string} text @param {string} detail @returns {boolean} whether it says the same, except for numbers */
const isText = (text, detail) => plain(detail).includes(plain(text));

/** @param {Finding} finding @param {CheckedOutcome} outcome @returns {boolean} whether the run fails in that way */
export function isShownBy({ kind, text, goesOn }, { ending, detail, races, divergence }) {
  if (divergence !== undefined && !goesOn) return false;
  switch (kind) {
    case "deadlock": return ending === "deadlock";
    case "race": return races.length > 0;
    case "no way out": return ending === "limit";
    case "not linearizable": return ending === "not linearizable";
    case "lost wake-up": return ending === "lost wake-up" || (goesOn && ending === "limit");
    case "check": return ending === "check" && isText(text, detail);
    default: return ending === "failed" && isText(text, detail);
  }
}
