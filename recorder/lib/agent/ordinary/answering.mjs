// The methods of typed arrays that return an array, for watched ones. What they return is private, unless the
// receiver's species makes another one.

import { TypedArray, uncurried } from "../../primordials.mjs";
import { elementOf, needsComparator, needsFunction, positionOf, wholeOf } from "./argument-conversions.mjs";
import { answered, partOf } from "./species.mjs";
import { copiedElements, readElement, setElements, writtenElements } from "./element-ranges.mjs";
import { ENGINE } from "./watched.mjs";

const { RangeError: EngineRangeError } = globalThis;

const call = uncurried(Function.prototype.call);
const reverseElements = uncurried(TypedArray.prototype.reverse);
const sortElements = uncurried(TypedArray.prototype.sort);

/**
 * An array of a species is filled one by one, as agents' code would: a watched one reports it.
 * @param {any} array
 * @param {any} values
 * @param {number} count
 */
function filled(array, values, count) {
  for (let index = 0; index < count; index += 1) array[index] = values[index];
  return array;
}

/** @type {Record<string, import("./patch.mjs").WatchedMethod>} methods that return an array */
export const ANSWERING = {
  map(watched, self, callback, thisArgument) {
    needsFunction(callback);
    const { length } = watched;
    const made = answered(watched, self, length);
    for (let index = 0; index < length; index += 1) {
      made[index] = call(callback, thisArgument, readElement(watched, index), index, self);
    }
    return made;
  },
  filter(watched, self, callback, thisArgument) {
    needsFunction(callback);
    const { length } = watched;
    const chosen = new ENGINE[watched.kind](length);
    let count = 0;
    for (let index = 0; index < length; index += 1) {
      const value = readElement(watched, index);
      if (!call(callback, thisArgument, value, index, self)) continue;
      chosen[count] = value;
      count += 1;
    }
    return filled(answered(watched, self, count), chosen, count);
  },
  slice(watched, self, begin, end) {
    const { length } = watched;
    const from = positionOf(begin, length, 0);
    const to = positionOf(end, length, length);
    const count = from < to ? to - from : 0;
    const made = answered(watched, self, count);
    if (count > 0) writtenElements(made, copiedElements(watched, from, to));
    return made;
  },
  subarray(watched, self, begin, end) {
    const { length, size, offset, buffer } = watched;
    const from = positionOf(begin, length, 0);
    const to = positionOf(end, length, length);
    return partOf(watched, self, [buffer, offset + from * size, from < to ? to - from : 0]);
  },
  toReversed: (watched) => reverseElements(copiedElements(watched, 0, watched.length)),
  toSorted(watched, _self, comparator) {
    needsComparator(comparator);
    return sortElements(copiedElements(watched, 0, watched.length), comparator);
  },
  with(watched, _self, position, value) {
    const { length, kind, big } = watched;
    const whole = wholeOf(position);
    const index = whole < 0 ? length + whole : whole;
    const element = elementOf(big, value);
    if (!(index >= 0 && index < length)) throw new EngineRangeError("Invalid typed array index");
    const made = new ENGINE[kind](length);
    setElements(made, copiedElements(watched, 0, index), 0);
    made[index] = element;
    setElements(made, copiedElements(watched, index + 1, length), index + 1);
    return made;
  },
};
