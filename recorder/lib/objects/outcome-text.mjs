// How an operation ended, as a text: what it returned, by its structure, or what it threw. Two results have one text
// exactly if `util.isDeepStrictEqual` says that they are equal, except for objects of classes: these go by the names of
// their classes. It runs beside the agents' code, so it uses functions that were kept before, and calls no getter.

import { types } from "node:util";
import {
  getOwnPropertyDescriptor, getPrototypeOf, is, isArray, ownKeys, stringify, uncurried,
} from "../primordials.mjs";

const {
  isAnyArrayBuffer, isArrayBufferView, isBoxedPrimitive, isDate, isMap, isNativeError, isPromise, isProxy, isRegExp,
  isSet, isWeakMap, isWeakSet,
} = types;
const { BigInt, Boolean, Number, String: text, Symbol } = globalThis;
const { keyFor } = Symbol;
const timeOf = uncurried(Date.prototype.getTime);
const sourceOf = uncurried(RegExp.prototype.toString);
const sorted = uncurried(Array.prototype.sort);
const joined = uncurried(Array.prototype.join);
const forEachOfMap = uncurried(Map.prototype.forEach);
const forEachOfSet = uncurried(Set.prototype.forEach);
const PRIMITIVES = [Number, text, Boolean, BigInt, Symbol];
const valuesOf = [
  uncurried(Number.prototype.valueOf), uncurried(String.prototype.valueOf), uncurried(Boolean.prototype.valueOf),
  uncurried(BigInt.prototype.valueOf), uncurried(Symbol.prototype.valueOf),
];

/** How the outcome of an operation reads that has to wait in the model. */
export const BLOCKED_OUTCOME = "has to wait";

/** What a model returns then: `blocked` of `sabsim/object`. */
const BLOCKED = Symbol.for("sabsim.blocked");

/** A result that nothing can be compared with: the message says what it is. */
export class NoOutcome extends Error {}

/** @param {string} what @returns {never} */
function refuse(what) {
  throw new NoOutcome(what);
}

/** @param {symbol} symbol @returns {string} */
function symbolText(symbol) {
  const name = keyFor(symbol);
  return name === undefined ? refuse("a symbol of its own") : `Symbol.for(${stringify(name)})`;
}

/** @param {unknown} value that is no object @returns {string} */
function primitiveText(value) {
  switch (typeof value) {
    case "string": return stringify(value);
    case "bigint": return `${value}n`;
    case "symbol": return symbolText(value);
    case "function": return refuse("a function");
    default: return is(value, -0) ? "-0" : `${value}`;
  }
}

/** @param {object} object @returns {string} the name of its class; empty for a plain object */
function className(object) {
  const prototype = getPrototypeOf(object);
  if (prototype === null) return "[no prototype] ";
  const { value } = getOwnPropertyDescriptor(prototype, "constructor") ?? {};
  const name = typeof value === "function" ? getOwnPropertyDescriptor(value, "name")?.value : undefined;
  return name === "Object" || name === "Array" || typeof name !== "string" ? "" : `${name} `;
}

/**
 * An expression would change `RegExp.lastMatch`, which agents see.
 * @param {string} key
 * @returns {boolean} whether it has only letters, digits, `_` and `$`, and at least one
 */
function isName(key) {
  for (let at = 0; at < key.length; at += 1) {
    const { [at]: each } = key;
    const isLetter = (each >= "a" && each <= "z") || (each >= "A" && each <= "Z");
    if (!isLetter && !(each >= "0" && each <= "9") && each !== "_" && each !== "$") return false;
  }
  return key !== "";
}

/** @param {string | symbol} key @returns {string} quoted, unless it is a name */
function keyText(key) {
  if (typeof key === "symbol") return `[${symbolText(key)}]`;
  return isName(key) ? key : stringify(key);
}

/** @param {object} object @param {object[]} around in which it is @returns {string[]} its own members, sorted */
function membersOf(object, around) {
  const keys = ownKeys(object);
  /** @type {string[]} */
  const members = [];
  for (let at = 0; at < keys.length; at += 1) {
    const key = keys[at];
    const found = /** @type {PropertyDescriptor} */ (getOwnPropertyDescriptor(object, key));
    if (!found.enumerable) continue;
    if (!("value" in found)) refuse("an object with a getter");
    members[members.length] = `${keyText(key)}: ${spelled(found.value, around)}`;
  }
  return sorted(members);
}

/** @param {object} object a Map or a Set @param {object[]} around @returns {string[]} its entries, sorted */
function entriesOf(object, around) {
  /** @type {string[]} */
  const entries = [];
  if (isMap(object)) {
    forEachOfMap(object, (/** @type {unknown} */ value, /** @type {unknown} */ key) => {
      entries[entries.length] = `${spelled(key, around)} => ${spelled(value, around)}`;
    });
  } else {
    forEachOfSet(object, (/** @type {unknown} */ value) => void (entries[entries.length] = spelled(value, around)));
  }
  return sorted(entries);
}

/** @param {object} object @returns {string | undefined} what it is that can't be compared */
function whatItIs(object) {
  if (isPromise(object)) return "a promise";
  // Views of recorded memory are proxies here.
  const isView = isProxy(object) || isArrayBufferView(object) || isAnyArrayBuffer(object);
  if (isView) return "a buffer, a view of one or a proxy";
  return isWeakMap(object) || isWeakSet(object) ? "a weak collection" : undefined;
}

/** @param {object} object @returns {string} what it keeps besides its members */
function insideOf(object) {
  if (isDate(object)) return `${timeOf(object)}`;
  if (isRegExp(object)) return sourceOf(object);
  if (isNativeError(object)) return thrownText(object);
  if (!isBoxedPrimitive(object)) return "";
  for (let at = 0; at < PRIMITIVES.length; at += 1) {
    try {
      return `(${primitiveText(valuesOf[at](object))})`;
    } catch (error) {
      if (error instanceof NoOutcome) throw error;
    }
  }
  return "";
}

/** @param {object} object @param {object[]} around @returns {string} */
function objectText(object, around) {
  for (let at = 0; at < around.length; at += 1) {
    if (around[at] === object) return `<the object ${around.length - at} out>`;
  }
  const what = whatItIs(object);
  if (what !== undefined) return refuse(what);
  const deeper = [];
  for (let at = 0; at < around.length; at += 1) deeper[at] = around[at];
  deeper[around.length] = object;
  const name = className(object);
  if (isArray(object)) return `${name}[${joined(itemsOf(object, deeper), ", ")}]`;
  const isCollection = isMap(object) || isSet(object);
  const entries = isCollection ? `[${joined(entriesOf(object, deeper), ", ")}] ` : "";
  return `${name}${entries}${insideOf(object)}{${joined(membersOf(object, deeper), ", ")}}`;
}

/** @param {unknown[]} list @param {object[]} around @returns {string[]} its items in their order, then other members */
function itemsOf(list, around) {
  /** @type {string[]} */
  const items = [];
  for (let at = 0; at < list.length; at += 1) {
    const found = getOwnPropertyDescriptor(list, `${at}`);
    items[at] = found === undefined ? "<empty>" : spelled(found.value, around);
  }
  const keys = ownKeys(list);
  if (keys.length === list.length + 1) return items;
  const members = membersOf(list, around);
  for (let at = 0; at < members.length; at += 1) items[items.length] = members[at];
  return items;
}

/**
 * @param {unknown} value
 * @param {object[]} [around] the objects in which it is, the outermost first
 * @returns {string} the value by its structure
 * @throws {NoOutcome}
 */
export function spelled(value, around = []) {
  return typeof value === "object" && value !== null ? objectText(value, around) : primitiveText(value);
}

/** @param {any} object @param {string} name @returns {unknown} of it or of what it inherits from, without a getter */
function memberOf(object, name) {
  for (let owner = object; owner !== null; owner = getPrototypeOf(owner)) {
    const found = getOwnPropertyDescriptor(owner, name);
    if (found !== undefined) return found.value;
  }
  return undefined;
}

/** @param {unknown} thrown @returns {string} an error by its name and message, and anything else as a result */
function thrownText(thrown) {
  if (typeof thrown !== "object" || thrown === null || !isNativeError(thrown)) return spelled(thrown);
  const name = memberOf(thrown, "name");
  // The message of an `assert(x)` without a text is made of the code there, which may have been rewritten.
  const quotes = memberOf(thrown, "generatedMessage") === true && memberOf(thrown, "operator") === "==";
  const message = quotes ? "" : memberOf(thrown, "message");
  return `${typeof name === "string" ? name : "Error"}: ${typeof message === "string" ? message : ""}`;
}

/**
 * @param {unknown} value what an operation has returned or thrown
 * @param {boolean} hasThrown
 * @returns {string}
 * @throws {NoOutcome} if it can't be compared
 */
export function outcomeText(value, hasThrown) {
  if (hasThrown) return `throws ${thrownText(value)}`;
  return value === BLOCKED ? BLOCKED_OUTCOME : `returns ${spelled(value)}`;
}
