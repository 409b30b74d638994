// The methods of typed arrays that read, for watched ones: what the standard says, with each read reported. A read that
// agents' code can come between is reported by itself; else those of a stretch are reported together.

import { TypedArray, uncurried } from "../../primordials.mjs";
import { arrayLikeOf } from "./watched-elements.mjs";
import { needsFunction, positionOf, wholeOf } from "./argument-conversions.mjs";
import { copiedElements, readElement } from "./element-ranges.mjs";

/** @typedef {import("./watched.mjs").WatchedArray} WatchedArray */

const { TypeError: EngineTypeError } = globalThis;
const { min } = Math;
const { prototype: arrays } = Array;

const call = uncurried(Function.prototype.call);
const joinElements = uncurried(TypedArray.prototype.join);
const keysOf = uncurried(arrays.keys);
const valuesOf = uncurried(arrays.values);
const entriesOf = uncurried(arrays.entries);

/**
 * Goes through the elements until the callback's answer is as wanted.
 * @param {WatchedArray} watched
 * @param {object} self
 * @param {unknown} callback
 * @param {unknown} thisArgument
 * @param {boolean} wanted
 * @returns {number} the index of that element, or -1
 */
function sought(watched, self, callback, thisArgument, wanted) {
  needsFunction(callback);
  const { length } = watched;
  for (let index = 0; index < length; index += 1) {
    if (!!call(callback, thisArgument, readElement(watched, index), index, self) === wanted) return index;
  }
  return -1;
}

/**
 * Does the same for `find` and its like, which return the element too.
 * @param {WatchedArray} watched
 * @param {object} self
 * @param {unknown} callback
 * @param {unknown} thisArgument
 * @param {number} step
 * @returns {{ index: number, value: any }}
 */
function found(watched, self, callback, thisArgument, step) {
  needsFunction(callback);
  const { length } = watched;
  for (let index = step > 0 ? 0 : length - 1; index >= 0 && index < length; index += step) {
    const value = readElement(watched, index);
    if (call(callback, thisArgument, value, index, self)) return { index, value };
  }
  return { index: -1, value: undefined };
}

/**
 * What `reduce` and `reduceRight` return.
 * @param {WatchedArray} watched
 * @param {object} self
 * @param {unknown} callback
 * @param {unknown} first
 * @param {number} count
 * @param {number} step
 */
function reduced(watched, self, callback, first, count, step) {
  needsFunction(callback);
  const { length } = watched;
  let index = step > 0 ? 0 : length - 1;
  let value = first;
  if (count < 2) {
    if (length === 0) throw new EngineTypeError("Reduce of empty array with no initial value");
    value = readElement(watched, index);
    index += step;
  }
  for (; index >= 0 && index < length; index += step) {
    value = call(callback, undefined, value, readElement(watched, index), index, self);
  }
  return value;
}

/** @typedef {(one: unknown, other: unknown) => boolean} Equals */

/** @type {Equals} */
const same = (one, other) => one === other;
/** @type {Equals} */
const sameOrNaN = (one, other) => one === other || (one !== one && other !== other);

/**
 * The first index, from a position on, of an element that equals a value; or -1.
 * @param {WatchedArray} watched
 * @param {unknown} value
 * @param {unknown} position
 * @param {Equals} equals
 */
function firstEqual(watched, value, position, equals) {
  const { length } = watched;
  if (length === 0) return -1;
  for (let index = positionOf(position, length, 0); index < length; index += 1) {
    if (equals(readElement(watched, index), value)) return index;
  }
  return -1;
}

/** @type {Record<string, import("./patch.mjs").WatchedMethod>} methods that read, and change nothing */
export const READING = {
  at(watched, _self, position) {
    const whole = wholeOf(position);
    const index = whole < 0 ? watched.length + whole : whole;
    return index >= 0 && index < watched.length ? readElement(watched, index) : undefined;
  },
  every: (watched, self, callback, thisArgument) => sought(watched, self, callback, thisArgument, false) < 0,
  some: (watched, self, callback, thisArgument) => sought(watched, self, callback, thisArgument, true) >= 0,
  find: (watched, self, callback, thisArgument) => found(watched, self, callback, thisArgument, 1).value,
  findIndex: (watched, self, callback, thisArgument) => found(watched, self, callback, thisArgument, 1).index,
  findLast: (watched, self, callback, thisArgument) => found(watched, self, callback, thisArgument, -1).value,
  findLastIndex: (watched, self, callback, thisArgument) => found(watched, self, callback, thisArgument, -1).index,
  forEach(watched, self, callback, thisArgument) {
    needsFunction(callback);
    const { length } = watched;
    for (let index = 0; index < length; index += 1) {
      call(callback, thisArgument, readElement(watched, index), index, self);
    }
  },
  includes: (watched, _self, value, position) => firstEqual(watched, value, position, sameOrNaN) >= 0,
  indexOf: (watched, _self, value, position) => firstEqual(watched, value, position, same),
  lastIndexOf(watched, _self, value, position, _third, count) {
    const { length } = watched;
    if (length === 0) return -1;
    const from = count > 1 ? wholeOf(position) : length - 1;
    for (let index = from < 0 ? length + from : min(from, length - 1); index >= 0; index -= 1) {
      if (readElement(watched, index) === value) return index;
    }
    return -1;
  },
  reduce: (watched, self, callback, first, _third, count) => reduced(watched, self, callback, first, count, 1),
  reduceRight: (watched, self, callback, first, _third, count) => reduced(watched, self, callback, first, count, -1),
  keys: (watched) => keysOf(arrayLikeOf(watched)),
  values: (watched) => valuesOf(arrayLikeOf(watched)),
  entries: (watched) => entriesOf(arrayLikeOf(watched)),
  join(watched, _self, separator) {
    const between = separator === undefined ? "," : `${separator}`;
    return joinElements(copiedElements(watched, 0, watched.length), between);
  },
  /** @type {import("./patch.mjs").WatchedMethod} */
  toLocaleString(watched, _self, locales, options) {
    const { length } = watched;
    let joined = "";
    for (let index = 0; index < length; index += 1) {
      if (index > 0) joined += ",";
      joined += `${readElement(watched, index).toLocaleString(locales, options)}`;
    }
    return joined;
  },
};
