// What the client of an object calls at the beginning and at the end of each operation.

import { NoOutcome, outcomeText } from "./outcome-text.mjs";

/**
 * @typedef {object} TakesMarks what is done with the marks
 * @property {(name: string) => void} lacks as `OperationMarks` has it
 * @property {(call: number) => void} begins
 * @property {(outcome: string, thrown: unknown) => void} ends also gets what was thrown, if something was
 * @property {(what: string, call: number) => void} refuse a call has returned something with which nothing can be
 * compared
 */

/**
 * @param {TakesMarks} takes
 * @returns {import("./object-client.mjs").OperationMarks}
 */
export function marksBy(takes) {
  let last = 0;
  const lacks = (/** @type {string} */ name) => takes.lacks(name);
  const begins = (/** @type {number} */ call) => {
    last = call;
    takes.begins(call);
  };
  const ends = (/** @type {unknown} */ value, /** @type {boolean} */ hasThrown) => {
    const { outcome, refused } = outcomeOf(value, hasThrown);
    if (outcome === undefined) takes.refuse(refused, last);
    else takes.ends(outcome, hasThrown ? value : undefined);
  };
  return { lacks, begins, ends };
}

/**
 * @param {unknown} value
 * @param {boolean} hasThrown
 * @returns {{ outcome: string, refused?: undefined } | { outcome?: undefined, refused: string }}
 */
function outcomeOf(value, hasThrown) {
  try {
    return { outcome: outcomeText(value, hasThrown) };
  } catch (error) {
    if (!(error instanceof NoOutcome)) throw error;
    return { refused: error.message };
  }
}
