// What a trace doesn't say about ordinary accesses: by which array the code made each, and what it read. The page of
// a run shows it.

import { KINDS, SIZES } from "../../../script/kinds.mjs";
import { elementText } from "../../../script/values.mjs";
import { READ } from "../../memory/log.mjs";
import { viewKey, viewName } from "../../memory/spelling.mjs";

/** @typedef {import("../../../script/text.mjs").View} View */

/**
 * @typedef {object} ArrayAccesses
 * @property {View[]} arrays of the code
 * @property {[event: number, array: number, value: string | null][]} made for each ordinary access by one of them its
 * position in the trace, that of its array, and as JavaScript writes it what it read; null: it wrote, or read more than
 * one element
 */

/**
 * The ordinary accesses by typed arrays of a run whose accesses have noted what they read.
 * @param {import("../../memory/log.mjs").Log} log
 * @param {number[]} lengths of the blocks
 * @returns {ArrayAccesses}
 */
export function accessesIn(log, lengths) {
  /** @type {ArrayAccesses} */
  const { arrays, made } = { arrays: [], made: [] };
  /** @type {Map<number, number>} */
  const positions = new Map();
  for (let position = 0; position < log.length; position += 1) {
    const { what, kind, block, from, to, offset, length } = log.at(position);
    if (what < READ || kind >= KINDS.length) continue;
    const view = { kind, block, offset, length };
    const key = viewKey(view);
    const known = positions.get(key) ?? arrays.length;
    if (known === arrays.length) {
      arrays.push({ name: viewName(lengths, view), kind: KINDS[kind], block, offset, length });
      positions.set(key, known);
    }
    const isRead = what === READ && to - from === SIZES[kind];
    made.push([position, known, isRead ? elementText(KINDS[kind], log.valueAt(position)) : null]);
  }
  return { arrays, made };
}
