// Of which kind an object is, and what is in its internal slots: what the engine itself says about it, whatever its
// properties and its prototype are.

import { types } from "node:util";
import { getOwnPropertyDescriptor, isArray, stringify, uncurried } from "../../primordials.mjs";
import { hexOf } from "../search/raw-elements.mjs";
import { intlOf } from "./intl-objects.mjs";
import { iterationOf } from "./shown-iterators.mjs";

/** Something that can't be shown. */
export class CantShow extends Error {}

// Agents can replace those of node's module.
const {
  isArgumentsObject, isBoxedPrimitive, isDate, isExternal, isGeneratorObject, isMap, isMapIterator,
  isModuleNamespaceObject, isNativeError, isPromise, isRegExp, isSet, isSetIterator, isWeakMap, isWeakSet,
} = types;

/** @typedef {(object: any) => boolean} IsOfKind */

/** @type {[string, IsOfKind][]} the kinds of objects that are shown, and that are neither functions nor memory */
const SHOWN = [
  ["array", isArray], ["Map", isMap], ["Set", isSet], ["WeakMap", isWeakMap], ["WeakSet", isWeakSet], ["Date", isDate],
  ["RegExp", isRegExp], ["Error", isNativeError], ["Promise", isPromise], ["arguments", isArgumentsObject],
  ["boxed", isBoxedPrimitive], ["iterator", (object) => iterationOf(object) !== undefined],
  ["Intl", (object) => intlOf(object) !== undefined],
];

/** @type {[string, IsOfKind][]} those that aren't */
const NOT_SHOWN = [
  ["a generator", isGeneratorObject], ["an iterator of a map", isMapIterator], ["an iterator of a set", isSetIterator],
  ["a module's namespace", isModuleNamespaceObject], ["an object of native code", isExternal],
];

/**
 * @param {object} object that is no proxy, no function, no buffer and no view
 * @returns {string} its kind; "" for a plain object
 * @throws {CantShow}
 */
export function objectKind(object) {
  for (let at = 0; at < SHOWN.length; at += 1) if (SHOWN[at][1](object)) return SHOWN[at][0];
  for (let at = 0; at < NOT_SHOWN.length; at += 1) if (NOT_SHOWN[at][1](object)) throw new CantShow(NOT_SHOWN[at][0]);
  return "";
}

/**
 * @param {object} prototype
 * @param {string} name
 * @returns {(object: any) => any} what reads that of an object, whatever this has of its own
 */
function reader(prototype, name) {
  const { get, value } = /** @type {PropertyDescriptor} */ (getOwnPropertyDescriptor(prototype, name));
  return uncurried(get ?? value);
}

const sourceOf = reader(RegExp.prototype, "source");
const FLAGS = [
  "hasIndices", "global", "ignoreCase", "multiline", "dotAll", "unicode", "unicodeSets", "sticky",
].map((name) => reader(RegExp.prototype, name));

/** The time of a Date. */
export const timeOf = reader(Date.prototype, "getTime");

/** Whether a buffer that isn't shared can be resized. */
export const isResizable = reader(ArrayBuffer.prototype, "resizable");

/** @param {RegExp} regExp @returns {string} what it looks for */
export const patternOf = (regExp) =>
  `${stringify(sourceOf(regExp))} ${FLAGS.map((flag) => (flag(regExp) ? 1 : 0)).join("")}`;

/** @type {[IsOfKind, (object: any) => unknown][]} what the kinds of boxed values have in them */
const BOXED = [
  [types.isNumberObject, reader(Number.prototype, "valueOf")],
  [types.isStringObject, reader(String.prototype, "valueOf")],
  [types.isBooleanObject, reader(Boolean.prototype, "valueOf")],
  [types.isBigIntObject, reader(BigInt.prototype, "valueOf")],
  [types.isSymbolObject, reader(Symbol.prototype, "valueOf")],
];

/** @param {object} object @returns {unknown} the value that is boxed in it */
export function boxedIn(object) {
  for (const [isOne, valueOf] of BOXED) if (isOne(object)) return valueOf(object);
  throw new CantShow("a boxed value");
}

// It is watched when the agents' code is there.
const EngineBytes = Uint8Array;
const FLOAT = new Float64Array(1);
const FLOAT_BYTES = new Uint8Array(FLOAT.buffer);

/** @param {ArrayBufferLike} buffer @returns {Uint8Array} its bytes */
export function bytesIn(buffer) {
  try {
    return new EngineBytes(buffer);
  } catch {
    throw new CantShow("a buffer that was given away");
  }
}

/** @param {number} value @returns {number | string} for two NaNs not the same if arrays would show other bits */
export function numberText(value) {
  if (Object.is(value, -0)) return "-0";
  if (value === value) return value;
  FLOAT[0] = value;
  return `NaN${hexOf(FLOAT_BYTES, 0, 8)}`;
}
