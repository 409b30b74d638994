// What an agent, an `init` or a `check` returns mustn't be something that is still to be done.

import { atText } from "./undone.mjs";

const { Error: EngineError } = globalThis;

/**
 * What a `check` finds if it returns that and doesn't throw it, as a check of one line of code does.
 * @param {unknown} answer
 * @returns {string | undefined} in words that follow the name of the one that returned it; undefined if it finds
 * nothing
 */
export function foundBy(answer) {
  if (answer === false) return "returned false";
  return answer instanceof EngineError ? `returned ${answer.name}: ${answer.message}` : undefined;
}

/**
 * What a returned value leaves undone.
 * @param {unknown} answer
 * @param {string} who has returned it
 * @param {string} [place] in the code that goes on later, if it is known
 * @returns {string | undefined} in words that follow the name of the one that returned it; undefined if nothing is left
 */
export function leftOpen(answer, who, place) {
  if (answer === null || (typeof answer !== "object" && typeof answer !== "function")) return undefined;
  const answered = /** @type {Record<string, unknown>} */ (answer);
  if (typeof answered.then === "function") return `returned a promise, but ${who} must be synchronous${atText(place)}`;
  if (typeof answered.next === "function") return "returned an iterator, whose code nobody runs: it is a generator";
  return undefined;
}
