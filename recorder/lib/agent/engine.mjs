// The engine's own Atomics, and elements as it compares them, from before agents get others.

import { CALLS, CALL_NUMBERS, SCRIPT_CONSTRUCTORS } from "../../script/kinds.mjs";

/** @type {Record<string, Function>} */
const functions = /** @type {any} */ (Atomics);
const FUNCTIONS = Object.freeze(CALLS.map((call) => functions[call.name]));
const ELEMENTS = Object.freeze(SCRIPT_CONSTRUCTORS.map((Kind) => [new Kind(1), new Kind(1)]));
const { wait: WAIT, notify: NOTIFY } = CALL_NUMBERS;

/**
 * Makes a call. A wait takes no time, and a notify wakes nobody: the board knows who waits.
 * @param {import("../memory/records.mjs").Call} call
 * @param {object} view
 * @returns {any} what the engine returns: a value, or for a wait a word
 */
export function engineCall({ call, index, operands }, view) {
  const make = FUNCTIONS[call];
  if (call === WAIT) return make(view, index, operands[0], 0);
  if (call === NOTIFY) return make(view, index, 0);
  if (operands.length === 0) return make(view, index);
  return operands.length === 1 ? make(view, index, operands[0]) : make(view, index, operands[0], operands[1]);
}

/**
 * Whether two values are the same element of a kind.
 * @param {number} kind
 * @param {number | bigint} one
 * @param {number | bigint} other
 */
export function isEqualElement(kind, one, other) {
  const elements = ELEMENTS[kind];
  elements[0][0] = one;
  elements[1][0] = other;
  return elements[0][0] === elements[1][0];
}
