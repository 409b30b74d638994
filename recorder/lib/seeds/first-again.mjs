// Whether the run of the first seed is the same when it is made once more, after the others. If it isn't, the agents'
// module keeps something from run to run. A program's first failing run is made once more at once, in fresh threads.

import { endingsText, hasThrown } from "../../page/endings.mjs";
import { OTHER_INPUT } from "../run/words/summary-words.mjs";

/** @typedef {import("./job.mjs").CheckedOutcome} CheckedOutcome */

/**
 * @typedef {object} Remembering how it differed
 * @property {number} seed
 * @property {string} differs `ending`, `bytes` or `acts`
 * @property {string} was how the run ended at first, as JSON has it
 * @property {string} is how it ended when it was made once more
 * @property {boolean} real whether the machine has given answers to the program, which may have come otherwise
 * @property {boolean} threw whether one of the two ended as `failed` because something was thrown
 */

/**
 * Compares two runs of a seed.
 * @param {Pick<CheckedOutcome, "seed" | "ending" | "detail" | "state" | "acts" | "real">} first
 * @param {Pick<CheckedOutcome, "ending" | "detail" | "state" | "acts">} again
 * @returns {Remembering | undefined} undefined if they are the same
 */
export function differenceBetween(first, again) {
  const { seed, ending: was, state, acts } = first;
  const is = again.ending;
  const threw = [first, again].some(({ ending, detail }) => hasThrown(ending, detail));
  const ends = { was, is, threw, real: first.real !== undefined };
  if (was !== is) return { seed, differs: "ending", ...ends };
  if (state.hash !== again.state.hash) return { seed, differs: "bytes", ...ends };
  return acts === again.acts ? undefined : { seed, differs: "acts", ...ends };
}

/** @param {string} ending as JSON has it @param {boolean} threw @returns {string} as people read it */
const endingOf = (ending, threw) => endingsText(ending, { failed: 1, threw: threw ? 1 : 0 });

/** @type {Record<string, (found: Remembering) => string>} */
const DIFFERENCES = {
  ending: ({ was, is, threw }) => `ended in another way (${endingOf(was, threw)}, then ${endingOf(is, threw)})`,
  bytes: () => "left other bytes",
  acts: () => "did something else",
};

/** @param {Remembering} found @returns {string} */
const differenceText = (found) => (DIFFERENCES[found.differs] ?? DIFFERENCES.acts)(found);

/**
 * What is added to the text of a failing run that got real answers.
 * @param {import("../run/outcome.mjs").Outcome} outcome
 * @param {import("../run/outcome.mjs").FirstRunAgain} [made] its result in fresh threads
 * @returns {string} nothing if it is the same there
 */
export function otherInputText(outcome, made) {
  if (made === undefined) return "";
  const differs = made.diverges || differenceBetween({ ...outcome, acts: made.acts }, made.again) !== undefined;
  return differs ? `made once more in fresh threads, the run went another way: ${OTHER_INPUT}` : "";
}

/** A failing run of a program isn't the same in fresh threads, so it is no finding. */
export class KeepsGlobals extends Error {}

/**
 * @param {Pick<CheckedOutcome, "seed" | "ending" | "detail" | "state">} outcome of a program's run that fails
 * @param {import("../run/outcome.mjs").FirstRunAgain} [made] its result in fresh threads
 * @returns {KeepsGlobals | undefined} undefined if it is the same there
 */
export function keepsGlobals(outcome, made) {
  const found = made && differenceBetween({ ...outcome, acts: made.acts }, made.again);
  if (found === undefined) return undefined;
  const where = made?.place === undefined ? "" : `, first at ${made.place}`;
  return new KeepsGlobals(`seed ${found.seed} was run once more in fresh threads, and ${differenceText(found)}`
    + `${where}: the program keeps something in globals: try --fresh`);
}

/** @param {Remembering} found @returns {string} a line of a summary */
export function rememberingText(found) {
  return `seed ${found.seed} was run once more at the end, and ${differenceText(found)}: `
    + (found.real ? OTHER_INPUT : "the module keeps something in its own variables: try --fresh");
}
