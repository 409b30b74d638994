// Why a run fails when an agent has left something behind, in words.

import { namedCallText, viewName } from "../memory/spelling.mjs";

/** @typedef {import("./pending-work.mjs").PendingWork} PendingWork */

/**
 * @param {string} what goes on later, in words
 * @param {string} who
 * @param {PendingWork} later which knows where, if anybody does
 */
export const laterText = (what, who, { place }) =>
  `goes on later, by ${what}, but ${who} must be synchronous${atText(place)}`;

/** @param {string} [place] @returns {string} a line as a stack has it */
export const atText = (place) => (place === undefined ? "" : `\n    at ${place}`);

/**
 * What code that has ended has left undone.
 * @param {PendingWork} later
 * @param {string} who
 * @returns {string | undefined}
 */
export function undone(later, who) {
  const goesOn = later.left();
  if (goesOn !== undefined) return laterText(goesOn, who, later);
  const thrown = later.thrownByListener();
  if (thrown !== undefined) return `has a listener that threw, which nobody catches: ${thrown}`;
  const rejected = later.rejected();
  return rejected === undefined ? undefined : `left a rejected promise, which nobody handles: ${rejected}`;
}

/**
 * A change of a byte that nothing stands for.
 * @param {import("../memory/recorded-memory.mjs").ByteChange} change
 * @param {{ agent: number, made: number, last: import("../memory/records.mjs").Call | undefined,
 *   context: import("./agent-context.mjs").AgentContext }} part of the agent that made it
 */
export function changeText({ block, byte, was, is }, { agent, made, last, context }) {
  const when = last === undefined || made === 0
    ? "before its first call"
    : `after its call ${made - 1}, ${namedCallText(viewName(context.lengths, last), last)}`;
  const what = `agent ${agent} changed byte ${byte} of block ${block} from ${was} to ${is}`;
  if (context.ordinary === "watch") return `${what} where no access was seen, ${when}: try --ordinary store`;
  return `${what} without a call of Atomics, ${when}`;
}
