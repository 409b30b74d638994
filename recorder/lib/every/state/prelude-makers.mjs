// What stands for calls of the engine that make something and call functions of the agents meanwhile. It is rewritten
// as the agents' modules are, so what is still to be made can be shown. What isn't ordinary is left to the engine.

import { types } from "node:util";
import { isOwnIterable } from "./prelude.mjs";

const { apply, ownKeys } = Reflect;
const { isArray, prototype: arrays } = Array;
const { getPrototypeOf, hasOwn } = Object;
const { isProxy, isRegExp } = types;
const { iterator } = Symbol;
const { prototype: strings } = String;
const { replace, replaceAll, slice } = strings;
const { prototype: regExps } = RegExp;
const { add } = Set.prototype;
const { set } = Map.prototype;
const EngineMap = Map;
const EnginePromise = Promise;
const EngineSet = Set;

/** @param {any} pattern @returns {boolean} whether the engine's own code alone finds it in a text */
const isPlainPattern = (pattern) => typeof pattern === "string" || (typeof pattern === "object" && pattern !== null
  && !isProxy(pattern) && isRegExp(pattern) && getPrototypeOf(pattern) === regExps && ownKeys(pattern).length === 1
  && typeof pattern.lastIndex === "number");

/**
 * The engine finds all places before it calls anything.
 * @param {Function} engine
 * @param {unknown} text
 * @param {unknown} pattern
 * @param {unknown} by what is called
 * @returns {any[][] | undefined} what it is called with for each place; undefined: other code may take part
 */
function placesOf(engine, text, pattern, by) {
  if (typeof text !== "string" || typeof by !== "function" || !isPlainPattern(pattern)) return undefined;
  /** @type {any[][]} */
  const places = [];
  apply(engine, text, [pattern, (/** @type {any[]} */ ...given) => {
    places[places.length] = given;
    return "";
  }]);
  return places;
}

/**
 * @param {string} text
 * @param {any[][]} places what `by` is called with
 * @param {any} by
 * @returns {string} the text with what `by` returns at these places
 */
function replaced(text, places, by) {
  let made = "";
  let end = 0;
  for (let k = 0; k < places.length; k += 1) {
    const given = places[k];
    // The names of groups come behind the text, if there are some.
    const at = given[given.length - (typeof given[given.length - 1] === "string" ? 2 : 3)];
    made += apply(slice, text, [end, at]);
    end = at + given[0].length;
    const part = apply(by, undefined, given);
    made += typeof part === "string" ? part : `${part}`;
  }
  return made + apply(slice, text, [end]);
}

/** @type {Record<string, (this: any, pattern: any, by: any) => string>} */
export const stringCalls = {
  replace(pattern, by) {
    const places = placesOf(replace, this, pattern, by);
    return places === undefined ? apply(replace, this, [pattern, by]) : replaced(this, places, by);
  },
  replaceAll(pattern, by) {
    const places = placesOf(replaceAll, this, pattern, by);
    return places === undefined ? apply(replaceAll, this, [pattern, by]) : replaced(this, places, by);
  },
};

/**
 * What `new Promise(executor)` makes. The promise is made when the executor has ended, so none is pending meanwhile. If
 * it gets an object, that may have a `then`, which the engine reads at once.
 * @param {any} executor
 * @returns {Promise<unknown>}
 */
export function madePromise(executor) {
  if (typeof executor !== "function") return new EnginePromise(executor);
  /** @type {Promise<unknown> | undefined} */
  let promise;
  /** @type {Function[]} what settles it */
  let settling = [];
  /** @type {[number, unknown] | undefined} what it is to get: which of the two settles it, and with what */
  let first;
  const make = () => {
    promise ??= new EnginePromise((...both) => { settling = both; });
  };
  const settle = (/** @type {number} */ which, /** @type {unknown} */ value) => {
    if (promise === undefined && first !== undefined) return;
    if (which === 0 && ((typeof value === "object" && value !== null) || typeof value === "function")) make();
    if (promise === undefined) first = [which, value];
    else apply(settling[which], undefined, [value]);
  };
  const given = [(/** @type {unknown} */ value) => settle(0, value), (/** @type {unknown} */ why) => settle(1, why)];
  try {
    apply(executor, undefined, given);
  } catch (error) {
    settle(1, error);
  }
  make();
  if (first !== undefined) apply(settling[first[0]], undefined, [first[1]]);
  return /** @type {Promise<unknown>} */ (/** @type {unknown} */ (promise));
}

/** @param {any} given @returns {Set<unknown>} what `new Set(given)` makes */
export function madeSet(given) {
  if (!isOwnIterable(given)) return new EngineSet(given);
  const made = new EngineSet();
  for (const one of given) apply(add, made, [one]);
  return made;
}

/** @param {any} given @returns {Map<unknown, unknown>} what `new Map(given)` makes */
export function madeMap(given) {
  if (!isOwnIterable(given)) return new EngineMap(given);
  const made = new EngineMap();
  for (const one of given) {
    // What is no entry is refused by the engine, in its own words.
    if (one === null || (typeof one !== "object" && typeof one !== "function")) return new EngineMap([one]);
    apply(set, made, [one[0], one[1]]);
  }
  return made;
}

/**
 * @param {any} given what a pattern takes apart
 * @param {number} count how many elements it names
 * @param {boolean} isOfRest whether it takes all others, too
 * @returns {any} what has the same elements, and doesn't need the agents' code for them
 */
export function takenOf(given, count, isOfRest) {
  if (typeof given === "string") return given;
  if (isArray(given) && !isProxy(given) && getPrototypeOf(given) === arrays && !hasOwn(given, iterator)) return given;
  /** @type {unknown[]} */
  const taken = [];
  for (const one of given) {
    taken[taken.length] = one;
    if (taken.length === count && !isOfRest) break;
  }
  return taken;
}
