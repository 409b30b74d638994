// How a script spells a call and names its view. An agent measures by it how long the script gets, so it uses nothing
// that agents can change.

import { CALLS, KINDS, SIZES } from "../../script/kinds.mjs";
import { SCRIPT_LIMITS } from "../../script/limits.mjs";

/** @typedef {import("./records.mjs").Call} Call */
/** @typedef {{ kind: number, block: number, offset: number, length: number }} ViewRange of a view: see `Call` */

// The marks of a call, as in ["load", "v", 0], and those before an operand.
const CALL_MARKS = 10;
const OPERAND_MARKS = 2;

// The text around a call in a script, that of its steps, and that of the end of its time, at most.
const AROUND_CALL = 8;
const FOUR_STEPS = 4 * 5;
const TIME_UP_MOVE = 20;

const { floor } = Math;

/** @param {ViewRange} view @returns {number} a number that no other view has */
export function viewKey({ kind, block, offset, length }) {
  const places = SCRIPT_LIMITS.bytes + 1;
  return ((kind * SCRIPT_LIMITS.blocks + block) * places + offset) * places + length;
}

/**
 * A name by the view's kind and place: its kind, its block if there are several, and its first byte if that isn't the
 * block's. If the view ends before the block does, its length comes last.
 * @param {number[]} lengths of the blocks
 * @param {ViewRange} view
 * @returns {string}
 */
export function viewName(lengths, { kind, block, offset, length }) {
  const room = floor((lengths[block] - offset) / SIZES[kind]);
  const whichBlock = lengths.length > 1 ? `_b${block}` : "";
  const where = offset > 0 ? `_at${offset}` : "";
  return `${KINDS[kind]}${whichBlock}${where}${length < room ? `_x${length}` : ""}`;
}

/** @param {number | bigint} operand @returns {string} as JSON: a BigInt is a string of its digits */
const operandText = (operand) => (typeof operand === "bigint" ? `"${operand}"` : `${operand}`);

/**
 * @param {string} view its name
 * @param {Call} call
 * @param {number} [index] of the element in that view
 * @returns {string} the call as a script has it
 */
export function namedCallText(view, call, index = call.index) {
  let text = `["${CALLS[call.call].name}", "${view}", ${index}`;
  for (let at = 0; at < call.operands.length; at += 1) text += `, ${operandText(call.operands[at])}`;
  return call.limit === undefined ? `${text}]` : `${text}, ${call.limit}]`;
}

/**
 * A call as a script has it, with the place of its element instead of view and index: so it is the same by whatever
 * view and name. A call whose view hasn't that element keeps both.
 * @param {ViewRange & { index: number }} at
 * @param {Call} call
 * @returns {string}
 */
export function placedCallText({ kind, block, offset, length, index }, call) {
  if (!(index >= 0 && index < length)) return namedCallText(`${viewKey({ kind, block, offset, length })}`, call);
  const element = { kind, block, offset: offset + index * SIZES[kind], length: 1 };
  return namedCallText(`${viewKey(element)}`, call, 0);
}

/**
 * @param {number | bigint} operand
 * @returns {number} how long its text is: the digits of a short whole number are counted
 */
function operandLength(operand) {
  if (typeof operand === "bigint" || (operand | 0) !== operand) return operandText(operand).length;
  let length = operand < 0 ? 2 : 1;
  for (let rest = operand < 0 ? -operand : operand; rest > 9; rest = floor(rest / 10)) length += 1;
  return length;
}

/**
 * How many bytes of a script a call and its moves take at most. An agent asks this for each call, so no text is made.
 * @param {number} nameLength of its view
 * @param {Call} call
 */
export function textRoom(nameLength, call) {
  let length = CALLS[call.call].name.length + nameLength + CALL_MARKS + operandLength(call.index);
  for (let at = 0; at < call.operands.length; at += 1) length += OPERAND_MARKS + operandLength(call.operands[at]);
  const limit = call.limit === undefined ? 0 : OPERAND_MARKS + operandLength(call.limit) + TIME_UP_MOVE;
  return length + limit + AROUND_CALL + FOUR_STEPS;
}
