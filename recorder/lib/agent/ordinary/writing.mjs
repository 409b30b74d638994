// The methods of typed arrays that write, for watched ones: all that can throw or call agents' code comes first, then
// what is accessed is reported first.

import { lengthOf, tagOf, TypedArray, uncurried } from "../../primordials.mjs";
import { elementOf, lengthFrom, needsComparator, needsObject, positionOf, wholeOf } from "./argument-conversions.mjs";
import { hasBigs } from "./species.mjs";
import { copiedElements, setElements } from "./element-ranges.mjs";
import { report, reportAll, unwrapped, watchedOf } from "./watched.mjs";

const { TypeError: EngineTypeError, RangeError: EngineRangeError, Object: toObject } = globalThis;
const { min } = Math;
const { prototype: typedArrays } = TypedArray;

const fillElements = uncurried(typedArrays.fill);
const reverseElements = uncurried(typedArrays.reverse);
const sortElements = uncurried(typedArrays.sort);
const moveElements = uncurried(typedArrays.copyWithin);

/** @type {Record<string, import("./patch.mjs").WatchedMethod>} methods that write */
export const WRITING = {
  fill(watched, self, value, begin, end) {
    const { length, big, real } = watched;
    const element = elementOf(big, value);
    const from = positionOf(begin, length, 0);
    const to = positionOf(end, length, length);
    report(watched, from, to, true);
    fillElements(real, element, from, to);
    return self;
  },
  reverse(watched, self) {
    const { length, real } = watched;
    const half = (length - (length % 2)) / 2;
    // The one in the middle stays where it is.
    const low = reverseElements(copiedElements(watched, 0, half));
    const high = reverseElements(copiedElements(watched, length - half, length));
    report(watched, 0, half, true);
    setElements(real, high, 0);
    report(watched, length - half, length, true);
    setElements(real, low, length - half);
    return self;
  },
  copyWithin(watched, self, target, begin, end) {
    const { length, real } = watched;
    const to = positionOf(target, length, 0);
    const from = positionOf(begin, length, 0);
    const last = positionOf(end, length, length);
    const count = min(last - from, length - to);
    if (count > 0) {
      report(watched, from, from + count, false);
      report(watched, to, to + count, true);
      moveElements(real, to, from, from + count);
    }
    return self;
  },
  sort(watched, self, comparator) {
    needsComparator(comparator);
    const sorted = sortElements(copiedElements(watched, 0, watched.length), comparator);
    reportAll(watched, true);
    setElements(watched.real, sorted, 0);
    return self;
  },
};

/**
 * `set` of a typed array, if the receiver or what it is given is watched.
 * @param {object} target
 * @param {any} source
 * @param {any} offset
 */
export function setFrom(target, source, offset) {
  const at = wholeOf(offset);
  if (at < 0) throw new EngineRangeError("offset is out of bounds");
  const real = unwrapped(source);
  if (tagOf(real) === undefined) return setFromObject(target, source, at);
  if (hasBigs(source) !== hasBigs(target)) throw new EngineTypeError("Cannot mix BigInt and other types");
  const count = lengthOf(real);
  if (count + at > lengthOf(unwrapped(target))) throw new EngineRangeError("offset is out of bounds");
  const from = watchedOf(source);
  const to = watchedOf(target);
  if (from !== undefined) reportAll(from, false);
  if (to !== undefined) report(to, at, at + count, true);
  setElements(unwrapped(target), real, at);
  return undefined;
}

/**
 * Element by element: each is asked for, which may call agents' code.
 * @param {any} target
 * @param {unknown} source
 * @param {number} at
 */
function setFromObject(target, source, at) {
  const list = toObject(needsObject(source));
  const count = lengthFrom(list.length);
  if (count + at > lengthOf(unwrapped(target))) throw new EngineRangeError("offset is out of bounds");
  for (let index = 0; index < count; index += 1) target[at + index] = list[index];
  return undefined;
}
