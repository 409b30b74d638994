// Which Numbers and BigInts a script can have, and how a message shows a value.

import { uncurried } from "../lib/primordials.mjs";

// Agents may change what they find, so the engine's own functions are kept here, before.
const { isSafeInteger } = Number;
const { is } = Object;
const { stringify } = JSON;
const partOf = uncurried(String.prototype.slice);

const BIG_LEAST = -(2n ** 127n);
const BIG_MOST = 2n ** 127n - 1n;

/**
 * Whether a value is a Number that a script can have: a whole one within ±(2^53 - 1).
 * @type {(value: unknown) => value is number}
 */
export const isWhole = /** @type {(value: unknown) => value is number} */ (isSafeInteger);

/**
 * Whether a BigInt is one that a script can have: one of 128 bits.
 * @param {bigint} value
 * @returns {boolean}
 */
export const isWithin128Bits = (value) => value >= BIG_LEAST && value <= BIG_MOST;

/**
 * A value as a message shows it; never calls code of the value's own.
 * @param {unknown} value
 * @returns {string}
 */
export function shown(value) {
  switch (typeof value) {
    case "bigint": return `${value}n`;
    case "string": return stringify(value.length > 40 ? `${partOf(value, 0, 40)}…` : value);
    case "function": return "a function";
    case "object": return value === null ? "null" : "an object";
    default: return is(value, -0) ? "-0" : `${typeof value === "symbol" ? "a symbol" : value}`;
  }
}
