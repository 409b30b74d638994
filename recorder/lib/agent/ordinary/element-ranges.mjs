// Elements of watched arrays, one by one and in ranges: what is read and written is reported.

import { bufferOf, lengthOf, TypedArray, uncurried } from "../../primordials.mjs";
import { ENGINE, report, unwrapped, watchedOf } from "./watched.mjs";

/** @typedef {import("./watched.mjs").Watched} Watched */
/** @typedef {import("./watched.mjs").WatchedArray} WatchedArray */

/** The engine's own `set`. */
export const setElements = uncurried(TypedArray.prototype.set);

/**
 * Reads an element.
 * @param {WatchedArray} watched
 * @param {number} index
 */
export function readElement(watched, index) {
  watched.reportElement(index, false);
  return watched.real[index];
}

/**
 * A private array with what is read of a watched one.
 * @param {Watched} watched
 * @param {number} from the first element
 * @param {number} to behind the last
 */
export function copiedElements(watched, from, to) {
  report(watched, from, to, false);
  const { kind, real, size, offset } = watched;
  const copy = new ENGINE[kind](to - from);
  setElements(copy, new ENGINE[kind](bufferOf(real), offset + from * size, to - from));
  return copy;
}

/**
 * Writes a private array's elements into another one, which may be watched.
 * @param {object} array
 * @param {object} values
 */
export function writtenElements(array, values) {
  const watched = watchedOf(array);
  if (watched !== undefined) report(watched, 0, lengthOf(values), true);
  setElements(unwrapped(array), values, 0);
}
