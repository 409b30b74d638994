// What was accessed, and when, in words.

import { CALLS, KINDS, SIZES } from "../../../script/kinds.mjs";
import { FLAG, NO_CALL } from "../../memory/log.mjs";
import { viewName } from "../../memory/spelling.mjs";
import { nameText } from "../../options/names.mjs";

/** @typedef {import("../../memory/log.mjs").LogEvent} LogEvent */

/**
 * The element of an access that has a byte, by its own name or by its view's name and index. A DataView's has a name
 * if its bytes are just those of an element that has one.
 * @param {LogEvent} event
 * @param {number} byte
 * @param {number[]} lengths of the blocks
 * @param {import("../../options/names.mjs").Names} names
 * @returns {string}
 */
export function elementName({ kind, block, from, to, offset, length }, byte, lengths, names) {
  if (kind >= KINDS.length) {
    const named = names.of(block, from, to);
    return named === undefined ? `byte ${byte} of block ${block}` : nameText(named);
  }
  const index = Math.floor((byte - offset) / SIZES[kind]);
  const named = names.at(kind, block, offset + index * SIZES[kind]);
  if (named !== undefined) return nameText(named);
  return `${viewName(lengths, { kind, block, offset, length })}[${index}]`;
}

/** @param {LogEvent} event @returns {string} what an access does, in words */
export function deedOf({ flags, method }) {
  if (method !== NO_CALL) return CALLS[method].name;
  return flags & FLAG.WRITES ? "writes" : "reads";
}

/**
 * When an ordinary access was made, among the agent's calls of Atomics.
 * @param {LogEvent} event
 * @param {number} calls how many the agent made
 */
export function whenOf({ call }, calls) {
  if (calls === 0) return "without a call of Atomics";
  if (call === 0) return "before its call 0";
  if (call >= calls) return `after its call ${calls - 1}`;
  return `between its calls ${call - 1} and ${call}`;
}
