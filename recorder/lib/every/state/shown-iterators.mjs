// Iterators that stand for the engine's in the realm of agents that are learned, since how far they are can be shown.
// Those of arrays, typed arrays and strings are made here. Those of maps and sets are the engine's: what each goes
// through is noted.

import { types } from "node:util";
import { methodOf, replace } from "../../agent/ordinary/patch.mjs";
import { askedLength, watchedOf } from "../../agent/ordinary/watched.mjs";
import {
  TypedArray, apply, copied, copyProperty, deleteProperty, getOwnPropertyDescriptor, getPrototypeOf, hasOwn, isObject,
  lengthOf, ownKeys, put, setPrototypeOf, tagOf, uncurried, weakGet, weakSet,
} from "../../primordials.mjs";
import { MatchIteration, matchesIn, ofMatches } from "./match-iteration.mjs";

/** @typedef {import("../../agent/ordinary/patch.mjs").StandInMaker} StandInMaker */
/** @typedef {"values" | "keys" | "entries"} Returned what an iterator returns of each entry */

/**
 * What an iterator will still return: all that it keeps.
 * @typedef {object} Iteration
 * @property {string} kind which one it is
 * @property {unknown} of what it goes through; undefined once it is at the end
 * @property {number} at how far it is
 */

const { iterator } = Symbol;
const { max, min, trunc } = Math;
const { Object: toObject, String: toText } = globalThis;
const isMapIterator = types.isMapIterator;
const isSetIterator = types.isSetIterator;
const codePointAt = uncurried(String.prototype.codePointAt);
const { fromCodePoint } = String;
const ofArrays = /** @type {any} */ (getPrototypeOf([].values()));
const ofStrings = /** @type {any} */ (getPrototypeOf(""[Symbol.iterator]()));
const ofMaps = /** @type {any} */ (getPrototypeOf(new Map().entries()));
const ofSets = /** @type {any} */ (getPrototypeOf(new Set().values()));
const { next: nextOfArrays } = ofArrays;
const { next: nextOfStrings } = ofStrings;

/** @type {object[]} iterators that read an element now */
const reading = [];

/** @returns {object[]} iterators of which `next` has been called, and reads an element now */
export const readingIterators = () => reading;

/** @param {any} list @returns {number} its length, as an iterator asks for it */
function lengthNow(list) {
  const watched = watchedOf(list);
  if (watched !== undefined) return askedLength(watched);
  if (tagOf(list) !== undefined) return lengthOf(list);
  const length = trunc(+list.length);
  return length === length ? max(0, min(length, Number.MAX_SAFE_INTEGER)) : 0;
}

/** An iterator of what has elements. */
class ArrayIteration {
  /** @type {any} */
  #list;

  /** @type {number} */
  #at;

  /** @type {Returned} */
  #lists;

  /** @param {object} list @param {Returned} lists */
  constructor(list, lists) {
    this.#list = list;
    this.#at = 0;
    this.#lists = lists;
  }

  /** @param {object} object @returns {Iteration | undefined} */
  static of(object) {
    if (!(#list in object)) return undefined;
    const iteration = /** @type {ArrayIteration} */ (object);
    return { kind: `array ${iteration.#lists}`, of: iteration.#list, at: iteration.#at };
  }

  next() {
    if (!isObject(this) || !(#list in this)) return apply(nextOfArrays, this, []);
    const list = this.#list;
    const at = this.#at;
    if (list === undefined) return { value: undefined, done: true };
    if (at >= lengthNow(list)) {
      this.#list = undefined;
      this.#at = 0;
      return { value: undefined, done: true };
    }
    this.#at = at + 1;
    if (this.#lists === "keys") return { value: at, done: false };
    const value = this.#read(list, at);
    return { value: this.#lists === "values" ? value : [at, value], done: false };
  }

  /** @param {any} list @param {number} at */
  #read(list, at) {
    const { length } = reading;
    reading[length] = this;
    try {
      return list[at];
    } finally {
      reading.length = length;
    }
  }
}

/** An iterator of a string. */
class StringIteration {
  /** @type {string | undefined} */
  #text;

  /** @type {number} */
  #at;

  /** @param {string} text */
  constructor(text) {
    this.#text = text;
    this.#at = 0;
  }

  /** @param {object} object @returns {Iteration | undefined} */
  static of(object) {
    if (!(#text in object)) return undefined;
    const iteration = /** @type {StringIteration} */ (object);
    return { kind: "string", of: iteration.#text, at: iteration.#at };
  }

  next() {
    if (!isObject(this) || !(#text in this)) return apply(nextOfStrings, this, []);
    const text = this.#text;
    if (text === undefined || this.#at >= text.length) {
      this.#text = undefined;
      this.#at = 0;
      return { value: undefined, done: true };
    }
    const value = fromCodePoint(codePointAt(text, this.#at));
    this.#at += value.length;
    return { value, done: false };
  }
}

/**
 * Node's own function that shows what an iterator of a map or of a set still goes through.
 * @type {(object: object, isIterator: true) => [unknown[], boolean]}
 */
let entriesLeft = () => [[], false];

/** @type {WeakMap<object, { of: object, kind: string }>} what iterators of maps and sets go through */
const collections = new WeakMap();

/** @type {WeakSet<object>} those that are at the end */
const ended = new WeakSet();
const endedAdd = uncurried(WeakSet.prototype.add);
const endedHas = uncurried(WeakSet.prototype.has);

/** @param {object} object an iterator of a map or of a set @returns {Iteration | undefined} */
function collectionIteration(object) {
  const noted = weakGet(collections, object);
  if (noted === undefined) return undefined;
  if (endedHas(ended, object)) return { kind: noted.kind, of: undefined, at: 0 };
  // It goes on through the last entries that there are: how many they are says how far it is.
  const [entries, isPaired] = entriesLeft(object, true);
  return { kind: noted.kind, of: noted.of, at: entries.length / (isPaired ? 2 : 1) };
}

/**
 * What such an iterator keeps, without a call of the agents' code.
 * @param {object} object
 * @returns {Iteration | undefined} undefined if it is none, or isn't known
 */
export function iterationOf(object) {
  if (isMapIterator(object) || isSetIterator(object)) return collectionIteration(object);
  return ArrayIteration.of(object) ?? StringIteration.of(object) ?? MatchIteration.of(object);
}

/** @type {Function[]} what makes them, or returns one itself, for loops */
const makers = [];

/**
 * What goes through an object in a loop, if it can be shown. None of the agents' code is called for it.
 * @param {any} given
 * @returns {Iterable<any> | undefined}
 */
export function shownIteratorOf(given) {
  if (given === undefined || given === null) return undefined;
  for (let owner = toObject(given); owner !== null; owner = getPrototypeOf(owner)) {
    if (types.isProxy(owner) && watchedOf(owner) === undefined) return undefined;
    const { value } = getOwnPropertyDescriptor(owner, iterator) ?? {};
    if (value !== undefined) return isOf(makers, value) ? shownOf(apply(value, given, [])) : undefined;
    if (hasOwn(owner, iterator)) return undefined;
  }
  return undefined;
}

/** @type {Function | undefined} what makes the iterators of arrays */
let valuesOfArrays;

/**
 * Each function's `arguments` get what makes the iterators of arrays from the engine.
 * @param {IArguments} given
 */
export function likeArrays(given) {
  if (valuesOfArrays !== undefined) put(given, iterator, valuesOfArrays);
}

/** @param {object} made @returns {any} */
const shownOf = (made) => (isObject(made) && iterationOf(made) !== undefined ? made : undefined);

/** @param {unknown[]} list @param {unknown} item */
function isOf(list, item) {
  for (let at = 0; at < list.length; at += 1) if (list[at] === item) return true;
  return false;
}

/**
 * Has a class make what stands for the engine's iterators: its prototype is as theirs is.
 * @param {any} stand
 * @param {object} engine their prototype
 */
function standFor({ prototype }, engine) {
  deleteProperty(prototype, "constructor");
  replace(prototype, "next", (next) => next);
  setPrototypeOf(prototype, getPrototypeOf(engine));
  for (const key of copied(ownKeys(engine))) if (key !== "next") copyProperty(prototype, engine, key);
}

/** @param {Returned} lists @returns {StandInMaker} */
const iteratingArrays = (lists) => (engine) => methodOf((self, given) => {
  // It throws if there can be none.
  const made = apply(engine, self, given);
  return getPrototypeOf(made) === ofArrays ? new ArrayIteration(toObject(self), lists) : made;
}, engine);

/** @type {StandInMaker} */
const iteratingStrings = (engine) => methodOf((self, given) => {
  if (self === undefined || self === null) return apply(engine, self, given);
  return new StringIteration(typeof self === "string" ? self : toText(self));
}, engine);

/** @type {StandInMaker} */
const iteratingMatches = (engine) => methodOf((self, given) =>
  matchesIn(self, given[0]) ?? apply(engine, self, given), engine);

/** @param {string} kind @returns {StandInMaker} */
const iteratingCollections = (kind) => (engine) => methodOf((self, given) => {
  const made = apply(engine, self, given);
  weakSet(collections, made, { of: self, kind });
  return made;
}, engine);

/** @type {StandInMaker} */
const notingEnds = (engine) => methodOf((self, given) => {
  const result = apply(engine, self, given);
  if (result.done) endedAdd(ended, self);
  return result;
}, engine);

/**
 * Replaces what makes iterators. It is called once, before any of the agents' code is loaded.
 * @param {typeof entriesLeft} previewEntries
 */
export function standForIterators(previewEntries) {
  entriesLeft = previewEntries;
  standFor(ArrayIteration, ofArrays);
  standFor(StringIteration, ofStrings);
  standFor(MatchIteration, ofMatches);
  replace(RegExp.prototype, Symbol.matchAll, iteratingMatches);
  const lists = /** @type {const} */ (["values", "keys", "entries"]);
  for (const owner of [Array.prototype, TypedArray.prototype]) {
    for (const name of lists) replace(owner, name, iteratingArrays(name));
    put(owner, iterator, owner.values);
  }
  valuesOfArrays = Array.prototype.values;
  replace(String.prototype, iterator, iteratingStrings);
  for (const [owner, kind, first] of /** @type {const} */ ([[Map, "map", "entries"], [Set, "set", "values"]])) {
    const { prototype } = owner;
    for (const name of lists) {
      if (name !== "keys" || owner === Map) replace(prototype, name, iteratingCollections(`${kind} ${name}`));
    }
    put(prototype, iterator, prototype[/** @type {"entries"} */ (first)]);
  }
  put(Set.prototype, "keys", Set.prototype.values);
  for (const owner of [ofMaps, ofSets]) replace(owner, "next", notingEnds);
  makers.push(/** @type {any} */ (getPrototypeOf(ofArrays))[iterator]);
  for (const { prototype } of [Array, TypedArray, String, Map, Set]) makers.push(prototype[iterator]);
}
