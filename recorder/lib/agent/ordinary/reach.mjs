// Finds recorded memory in what a native function is given, and copies of it that are private.

import {
  copyProperty, create, defineProperty, getOwnPropertyDescriptor, getPrototypeOf, hasOwn, isArray, isObject, lengthOf,
  mapGet, mapSet, ownKeys, setPrototypeOf, sharedLengthOf, tagOf, uncurried,
} from "../../primordials.mjs";
import { OTHER, blockNumber, watching } from "./context.mjs";
import { DATA_VIEW, ENGINE, WHOLE_BUFFER, anyWatchedOf, reportAll } from "./watched.mjs";

const EngineMap = Map;
const EngineSet = Set;
const EngineShared = SharedArrayBuffer;
const EngineView = DataView;
const EngineBytes = Uint8Array;
const { isView } = ArrayBuffer;
const setElements = uncurried(EngineBytes.prototype.set);
const mapEach = uncurried(EngineMap.prototype.forEach);
const setEach = uncurried(EngineSet.prototype.forEach);
const setAdd = uncurried(EngineSet.prototype.add);
const setHas = uncurried(EngineSet.prototype.has);

/** Deeper than any list of lists that a function takes. */
export const SHALLOW = 2;
export const WHOLLY = Infinity;

/** @typedef {(value: unknown) => boolean} Test what is looked for */
/** @typedef {{ objects: number }} Walked how many objects are in a value: it is noted if nothing is found there */

/**
 * @type {Test} whether a value is itself memory whose accesses are noted: recorded memory, or an array on other shared
 * memory
 */
export const isWatched = (value) => anyWatchedOf(value) !== undefined || blockNumber(value) >= 0;

/** @type {Test} whether a value is an array on shared memory that isn't recorded */
const isOther = (value) => anyWatchedOf(value)?.place.block === OTHER;

/** @type {Test} whether a value is itself recorded memory */
export const isRecorded = (value) => isWatched(value) && !isOther(value);

/** @param {unknown} value @returns {boolean} whether a value has nothing in it that a function would look at */
const isLeaf = (value) =>
  !isObject(value) || tagOf(value) !== undefined || isView(value) || anyWatchedOf(value) !== undefined;

/**
 * What an object has in it, one after the other: the values of its own properties, and what a Map or Set has.
 * @param {object} object
 * @param {(inner: unknown) => void} visit
 * @returns {boolean} false if there is a getter: nobody knows what it would return
 */
function eachWithin(object, visit) {
  if (object instanceof EngineMap) {
    mapEach(object, (/** @type {unknown} */ value, /** @type {unknown} */ key) => {
      visit(key);
      visit(value);
    });
  }
  if (object instanceof EngineSet) setEach(object, visit);
  const keys = ownKeys(object);
  let isKnown = true;
  for (let at = 0; at < keys.length; at += 1) {
    const found = getOwnPropertyDescriptor(object, keys[at]);
    if (found === undefined) continue;
    if (hasOwn(found, "value")) visit(found.value);
    else if (found.enumerable) isKnown = false;
  }
  return isKnown;
}

/**
 * Whether memory can be reached from a value. Objects may be in each other so deep that no function could call itself
 * for each.
 * @param {unknown} value
 * @param {number} depth how many objects deep is looked
 * @param {boolean} [suspicious] whether a getter counts too
 * @param {Test} [isIt] which memory is looked for
 * @param {Walked} [walked]
 * @returns {boolean}
 */
export function reaches(value, depth, suspicious = false, isIt = isWatched, walked = undefined) {
  if (isIt(value)) return true;
  if (depth === 0 || isLeaf(value) || typeof value === "function") {
    if (walked !== undefined) walked.objects = 1;
    return false;
  }
  const met = new EngineSet();
  setAdd(met, value);
  let isFound = false;
  let objects = 1;
  /** @type {any[]} */
  let next = [];
  const visit = (/** @type {unknown} */ inner) => {
    if (isFound) return;
    isFound = isIt(inner);
    if (isFound || isLeaf(inner) || typeof inner === "function" || setHas(met, inner)) return;
    setAdd(met, inner);
    next[next.length] = inner;
  };
  for (let all = [value], left = depth; all.length > 0 && left > 0; left -= 1) {
    next = [];
    for (let at = 0; at < all.length; at += 1) {
      const isKnown = eachWithin(/** @type {object} */ (all[at]), visit);
      if (isFound || (suspicious && !isKnown)) return true;
    }
    objects += next.length;
    all = next;
  }
  if (walked !== undefined) walked.objects = objects;
  return false;
}

/**
 * Reports that a whole recorded buffer is read.
 * @param {object} buffer
 * @param {number} block
 */
function reportBuffer(buffer, block) {
  const length = sharedLengthOf(buffer);
  if (length === 0) return;
  watching.seen({ block, kind: WHOLE_BUFFER, offset: 0, length }, 0, length, false);
}

/**
 * A private buffer as long as another one, with the bytes of a stretch of it, and else zeros.
 * @param {any} buffer
 * @param {number} offset
 * @param {number} length
 */
function bytesOf(buffer, offset, length) {
  const copy = new EngineShared(sharedLengthOf(buffer));
  setElements(new EngineBytes(copy), new EngineBytes(buffer, offset, length), offset);
  return copy;
}

/**
 * A private copy of a recorded buffer. It is reported that all of it is read.
 * @param {object} buffer
 */
export function privateBuffer(buffer) {
  reportBuffer(buffer, blockNumber(buffer));
  return bytesOf(buffer, 0, sharedLengthOf(buffer));
}

/**
 * A private copy of a watched array or view, at the same place of its buffer. It is reported that all of it is read.
 * @param {import("./watched.mjs").Watched} watched
 * @param {SharedArrayBuffer} [buffer] another one than what is made
 */
export function privateView(watched, buffer) {
  const { real, kind, offset, length, size, standIn } = watched;
  if (buffer === undefined) reportAll(watched, false);
  const bytes = buffer ?? bytesOf(watched.buffer, offset, length * size);
  const copy = kind === DATA_VIEW ? new EngineView(bytes, offset, length) : new ENGINE[kind](bytes, offset, length);
  setPrototypeOf(copy, getPrototypeOf(standIn));
  copyExtras(kind === DATA_VIEW ? standIn : real, copy);
  return copy;
}

/** @param {object} value a watched array or view, or a recorded buffer */
function privateCopy(value) {
  const watched = anyWatchedOf(value);
  return watched === undefined ? privateBuffer(value) : privateView(watched);
}

/**
 * The properties that an agent's code has given an array, besides its elements.
 * @param {object} from
 * @param {object} to
 */
function copyExtras(from, to) {
  const keys = ownKeys(from);
  const first = tagOf(from) === undefined ? 0 : lengthOf(from);
  for (let at = first; at < keys.length; at += 1) copyProperty(to, from, keys[at]);
}

/** @param {any} array on memory that isn't recorded @returns {object} the engine's own */
const engineArray = (array) => /** @type {import("./watched.mjs").Watched} */ (anyWatchedOf(array)).real;

/** @typedef {{ isIt: Test, copyOf: (value: any) => object }} Mirroring what is replaced, and by what */

/** @type {Mirroring} */
const COPYING = { isIt: isWatched, copyOf: privateCopy };

/** @type {Mirroring} */
export const REVEALING = { isIt: isOther, copyOf: engineArray };

/**
 * A value with private copies of all watched memory that it reaches. What reaches none is itself.
 * @param {any} value
 * @param {Map<object, object>} made the copies of objects, so that each has one
 * @param {Mirroring} [how]
 * @returns {any}
 */
export function mirrored(value, made, how = COPYING) {
  const known = isObject(value) ? mapGet(made, value) : undefined;
  if (known !== undefined) return known;
  if (how.isIt(value)) {
    const copy = how.copyOf(value);
    mapSet(made, value, copy);
    return copy;
  }
  if (!reaches(value, WHOLLY, false, how.isIt)) return value;
  const copy = emptyLike(value);
  mapSet(made, value, copy);
  fillMirror(value, copy, made, how);
  return copy;
}

/** @param {object} value */
function emptyLike(value) {
  if (value instanceof EngineMap) return setPrototyped(new EngineMap(), value);
  if (value instanceof EngineSet) return setPrototyped(new EngineSet(), value);
  if (isArray(value)) return setPrototyped([], value);
  return create(getPrototypeOf(value));
}

/** @template {object} Copy @param {Copy} copy @param {object} value */
function setPrototyped(copy, value) {
  setPrototypeOf(copy, getPrototypeOf(value));
  return copy;
}

/** @param {object} value @param {object} copy @param {Map<object, object>} made @param {Mirroring} how */
function fillMirror(value, copy, made, how) {
  /** @param {unknown} inner */
  const mirror = (inner) => mirrored(inner, made, how);
  if (value instanceof EngineMap) {
    mapEach(value, (/** @type {unknown} */ inner, /** @type {unknown} */ key) => {
      mapSet(copy, mirror(key), mirror(inner));
    });
  }
  if (value instanceof EngineSet) setEach(value, (/** @type {unknown} */ inner) => setAdd(copy, mirror(inner)));
  const keys = ownKeys(value);
  for (let at = 0; at < keys.length; at += 1) {
    const found = getOwnPropertyDescriptor(value, keys[at]);
    if (found === undefined) continue;
    if (hasOwn(found, "value")) found.value = mirror(found.value);
    defineProperty(copy, keys[at], found);
  }
}
