// Conversions of the language, as its own methods make them of what they are given.

import { uncurried } from "../../primordials.mjs";

const { trunc, max, min } = Math;
const { BigInt: EngineBigInt, RangeError: EngineRangeError, TypeError: EngineTypeError } = globalThis;
const { asIntN } = EngineBigInt;
const charCodeAt = uncurried(String.prototype.charCodeAt);

const ZERO = 48;
const { MAX_SAFE_INTEGER: MOST } = Number;

/**
 * The index that a property's key is, if it is one below a length; else -1. Only a number as it is printed is an index:
 * "1" is one, "01", "1.0" and "1e1" are none.
 * @param {string} key
 * @param {number} length
 * @returns {number}
 */
export function indexIn(key, length) {
  let index = charCodeAt(key, 0) - ZERO;
  if (!(index >= 0 && index <= 9)) return -1;
  const digits = key.length;
  if (digits > 1) {
    if (index === 0 || digits > 15) return -1;
    for (let at = 1; at < digits; at += 1) {
      const digit = charCodeAt(key, at) - ZERO;
      if (!(digit >= 0 && digit <= 9)) return -1;
      index = index * 10 + digit;
    }
  }
  return index < length ? index : -1;
}

/** @param {any} value @returns {number} a whole number, or an infinite one */
export function wholeOf(value) {
  const number = +value;
  return number !== number ? 0 : trunc(number) + 0;
}

/** @param {any} value @returns {bigint} what the language makes of it, with all its bits */
export const bigOf = (value) => asIntN(MOST, value);

/**
 * A position in an array, which counts from its end if it is negative.
 * @param {any} value
 * @param {number} length
 * @param {number} otherwise if none is given
 */
export function positionOf(value, length, otherwise) {
  if (value === undefined) return otherwise;
  const position = wholeOf(value);
  return position < 0 ? max(length + position, 0) : min(position, length);
}

/**
 * A value as the elements of an array take it.
 * @param {boolean} big whether they are BigInts
 * @param {any} value
 */
export const elementOf = (big, value) => (big ? asIntN(64, value) : +value);

/** @param {any} value @param {string} what is said if it is none @returns {number} an index of bytes */
export function byteIndexOf(value, what) {
  const index = wholeOf(value);
  if (index < 0 || index > MOST) throw new EngineRangeError(what);
  return index;
}

/** @param {unknown} callback */
export function needsFunction(callback) {
  if (typeof callback !== "function") throw new EngineTypeError(`${kindWord(callback)} is not a function`);
}

/** @param {unknown} value how an error names it, without calling its code */
const kindWord = (value) => (value === undefined || value === null ? `${value}` : `the given ${typeof value}`);

/** @param {unknown} comparator */
export function needsComparator(comparator) {
  if (comparator === undefined || typeof comparator === "function") return;
  throw new EngineTypeError("The comparison function must be either a function or undefined");
}

/** @param {unknown} value @returns {any} itself */
export function needsObject(value) {
  if (value === undefined || value === null) throw new EngineTypeError("Cannot convert undefined or null to object");
  return value;
}

/** @param {any} value @returns {number} a length, as the language takes it from an object that is like an array */
export function lengthFrom(value) {
  const whole = wholeOf(value);
  return whole > 0 ? min(whole, MOST) : 0;
}
