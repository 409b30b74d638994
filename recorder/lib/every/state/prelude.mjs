// The engine's own loops that call a function of the agents, in JavaScript: it can be shown then how far they are. They
// are rewritten as the agents' modules are, and stand for the engine's while agents are learned. What isn't an ordinary
// array, map or set is left to the engine's. So is each call of a function with a list, except that the list is made
// here: no frame would show that the engine makes it.

import { EventEmitter } from "node:events";
import { types } from "node:util";

const { apply } = Reflect;
const { iterator } = Symbol;
const { isMap, isProxy, isSet } = types;
const { getOwnPropertyDescriptor, getOwnPropertySymbols, getPrototypeOf, hasOwn } = Object;
const { isArray, prototype: arrays } = Array;
const { max, min, trunc } = Math;
const { prototype: typedArrays } = getPrototypeOf(Int8Array);
const { get: lengthOf } = /** @type {any} */ (getOwnPropertyDescriptor(typedArrays, "length"));
const { get: tagOf } = /** @type {any} */ (getOwnPropertyDescriptor(typedArrays, Symbol.toStringTag));
const { prototype: maps } = Map;
const { prototype: sets } = Set;
const { entries } = maps;
const { values } = sets;
const EngineArray = Array;
const ofArrays = methodsOf(arrays);
const ofTyped = methodsOf(typedArrays);
const { from } = Array;
const { prototype: functions } = Function;
const { apply: applied } = functions;
const { forEach: eachOfMap } = maps;
const { forEach: eachOfSet } = sets;
const { stringify } = JSON;
const { prototype: emitters } = EventEmitter;
const { emit } = emitters;
/** By this key an emitter has whether it hands on what its listeners' promises are rejected with. */
const captures = getOwnPropertySymbols(emitters).find(({ description }) => description === "kCapture");

/** @typedef {(this: any, f: any, that?: any) => any} ArrayLoop */

/** @param {any} owner */
function methodsOf(owner) {
  const { every, filter, find, findIndex, findLast, findLastIndex, flatMap, forEach, map, reduce, reduceRight, some }
    = owner;
  const { sort, toSorted } = owner;
  return {
    every, filter, find, findIndex, findLast, findLastIndex, flatMap, forEach, map, reduce, reduceRight, some, sort,
    toSorted,
  };
}

/** @param {unknown} list @param {unknown} f */
const isOrdinary = (list, f) => typeof f === "function" && isArray(list) && !isProxy(list);

/** @param {unknown} list @param {unknown} f @returns {boolean} whether a copy of the list is an ordinary array too */
const makesOrdinary = (list, f) => isOrdinary(list, f) && getPrototypeOf(list) === arrays
  && !hasOwn(/** @type {object} */ (list), "constructor");

/** @param {unknown} list @param {unknown} f */
const isTyped = (list, f) => typeof f === "function" && apply(tagOf, list, []) !== undefined
  && apply(lengthOf, list, []) > 0;

/** @param {any} list @returns {number} */
const lengthIn = (list) => max(0, min(trunc(+list.length) || 0, Number.MAX_SAFE_INTEGER));

/** The engine sorts a list that is shorter than that by insertion. */
const LONG = 64;

/** @param {any} list @param {any} f @returns {boolean} */
const isShort = (list, f) => isOrdinary(list, f) && list.length < LONG;

/** @param {any} f what compares @param {any} one @param {any} other @returns {number} */
function order(f, one, other) {
  const result = +apply(f, undefined, [one, other]);
  return result === result ? result : 0;
}

/** @param {any[]} list @param {any} f @returns {number} how many at its beginning are in order, once it has returned */
function beginsInOrder(list, f) {
  const isDown = order(f, list[1], list[0]) < 0;
  let n = 2;
  while (n < list.length && (order(f, list[n], list[n - 1]) < 0) === isDown) n += 1;
  if (!isDown) return n;
  for (let k = 0; k < n - 1 - k; k += 1) {
    const one = list[k];
    list[k] = list[n - 1 - k];
    list[n - 1 - k] = one;
  }
  return n;
}

/** @param {any[]} list that gets sorted, as the engine does it @param {any} f */
function sortShort(list, f) {
  if (list.length < 2) return;
  for (let at = beginsInOrder(list, f); at < list.length; at += 1) {
    const one = list[at];
    let from = 0;
    let to = at;
    while (from < to) {
      const middle = from + ((to - from) >> 1);
      if (order(f, one, list[middle]) < 0) to = middle;
      else from = middle + 1;
    }
    for (let k = at; k > from; k -= 1) list[k] = list[k - 1];
    list[from] = one;
  }
}

/** @type {Record<string, ArrayLoop>} */
export const arrayLoops = {
  sort(f) {
    if (!isShort(this, f)) return apply(ofArrays.sort, this, [f]);
    const n = this.length;
    if (n < 2) return this;
    const list = [];
    let missing = 0;
    for (let k = 0; k < n; k += 1) {
      if (!(k in this)) {
        missing += 1;
        continue;
      }
      const one = this[k];
      if (one !== undefined) list[list.length] = one;
    }
    sortShort(list, f);
    for (let k = 0; k < n - missing; k += 1) this[k] = k < list.length ? list[k] : undefined;
    for (let k = n - missing; k < n; k += 1) delete this[k];
    return this;
  },
  toSorted(f) {
    if (!isShort(this, f)) return apply(ofArrays.toSorted, this, [f]);
    const n = this.length;
    const list = [];
    for (let k = 0; k < n; k += 1) {
      const one = this[k];
      if (one !== undefined) list[list.length] = one;
    }
    sortShort(list, f);
    while (list.length < n) list[list.length] = undefined;
    return list;
  },
  forEach(f, that = undefined) {
    if (!isOrdinary(this, f)) return apply(ofArrays.forEach, this, [f, that]);
    for (let k = 0, n = this.length; k < n; k += 1) if (k in this) apply(f, that, [this[k], k, this]);
  },
  map(f, that = undefined) {
    if (!makesOrdinary(this, f)) return apply(ofArrays.map, this, [f, that]);
    const n = this.length;
    const made = new EngineArray(n);
    for (let k = 0; k < n; k += 1) if (k in this) made[k] = apply(f, that, [this[k], k, this]);
    return made;
  },
  filter(f, that = undefined) {
    if (!makesOrdinary(this, f)) return apply(ofArrays.filter, this, [f, that]);
    const kept = [];
    for (let k = 0, n = this.length; k < n; k += 1) {
      if (!(k in this)) continue;
      const one = this[k];
      if (apply(f, that, [one, k, this])) kept[kept.length] = one;
    }
    return kept;
  },
  flatMap(f, that = undefined) {
    if (!makesOrdinary(this, f)) return apply(ofArrays.flatMap, this, [f, that]);
    const made = [];
    for (let k = 0, n = this.length; k < n; k += 1) {
      if (!(k in this)) continue;
      const one = apply(f, that, [this[k], k, this]);
      if (!isArray(one)) made[made.length] = one;
      else for (let j = 0, m = lengthIn(one); j < m; j += 1) if (j in one) made[made.length] = one[j];
    }
    return made;
  },
  some(f, that = undefined) {
    if (!isOrdinary(this, f)) return apply(ofArrays.some, this, [f, that]);
    for (let k = 0, n = this.length; k < n; k += 1) if (k in this && apply(f, that, [this[k], k, this])) return true;
    return false;
  },
  every(f, that = undefined) {
    if (!isOrdinary(this, f)) return apply(ofArrays.every, this, [f, that]);
    for (let k = 0, n = this.length; k < n; k += 1) if (k in this && !apply(f, that, [this[k], k, this])) return false;
    return true;
  },
  find(f, that = undefined) {
    if (!isOrdinary(this, f)) return apply(ofArrays.find, this, [f, that]);
    for (let k = 0, n = this.length; k < n; k += 1) {
      const one = this[k];
      if (apply(f, that, [one, k, this])) return one;
    }
    return undefined;
  },
  findIndex(f, that = undefined) {
    if (!isOrdinary(this, f)) return apply(ofArrays.findIndex, this, [f, that]);
    for (let k = 0, n = this.length; k < n; k += 1) if (apply(f, that, [this[k], k, this])) return k;
    return -1;
  },
  findLast(f, that = undefined) {
    if (!isOrdinary(this, f)) return apply(ofArrays.findLast, this, [f, that]);
    for (let k = this.length - 1; k >= 0; k -= 1) {
      const one = this[k];
      if (apply(f, that, [one, k, this])) return one;
    }
    return undefined;
  },
  findLastIndex(f, that = undefined) {
    if (!isOrdinary(this, f)) return apply(ofArrays.findLastIndex, this, [f, that]);
    for (let k = this.length - 1; k >= 0; k -= 1) if (apply(f, that, [this[k], k, this])) return k;
    return -1;
  },
  reduce(f, ...first) {
    if (!isOrdinary(this, f)) return apply(ofArrays.reduce, this, [f, ...first]);
    const n = this.length;
    let k = 0;
    let value = first[0];
    if (first.length === 0) {
      while (k < n && !(k in this)) k += 1;
      if (k >= n) throw new TypeError("Reduce of empty array with no initial value");
      value = this[k];
      k += 1;
    }
    for (; k < n; k += 1) if (k in this) value = apply(f, undefined, [value, this[k], k, this]);
    return value;
  },
  reduceRight(f, ...first) {
    if (!isOrdinary(this, f)) return apply(ofArrays.reduceRight, this, [f, ...first]);
    let k = this.length - 1;
    let value = first[0];
    if (first.length === 0) {
      while (k >= 0 && !(k in this)) k -= 1;
      if (k < 0) throw new TypeError("Reduce of empty array with no initial value");
      value = this[k];
      k -= 1;
    }
    for (; k >= 0; k -= 1) if (k in this) value = apply(f, undefined, [value, this[k], k, this]);
    return value;
  },
};

/** @type {Record<string, ArrayLoop>} */
export const typedLoops = {
  forEach(f, that = undefined) {
    if (!isTyped(this, f)) return apply(ofTyped.forEach, this, [f, that]);
    for (let k = 0, n = apply(lengthOf, this, []); k < n; k += 1) apply(f, that, [this[k], k, this]);
  },
  some(f, that = undefined) {
    if (!isTyped(this, f)) return apply(ofTyped.some, this, [f, that]);
    for (let k = 0, n = apply(lengthOf, this, []); k < n; k += 1) if (apply(f, that, [this[k], k, this])) return true;
    return false;
  },
  every(f, that = undefined) {
    if (!isTyped(this, f)) return apply(ofTyped.every, this, [f, that]);
    for (let k = 0, n = apply(lengthOf, this, []); k < n; k += 1) if (!apply(f, that, [this[k], k, this])) return false;
    return true;
  },
  find(f, that = undefined) {
    if (!isTyped(this, f)) return apply(ofTyped.find, this, [f, that]);
    for (let k = 0, n = apply(lengthOf, this, []); k < n; k += 1) {
      const one = this[k];
      if (apply(f, that, [one, k, this])) return one;
    }
    return undefined;
  },
  findIndex(f, that = undefined) {
    if (!isTyped(this, f)) return apply(ofTyped.findIndex, this, [f, that]);
    for (let k = 0, n = apply(lengthOf, this, []); k < n; k += 1) if (apply(f, that, [this[k], k, this])) return k;
    return -1;
  },
  findLast(f, that = undefined) {
    if (!isTyped(this, f)) return apply(ofTyped.findLast, this, [f, that]);
    for (let k = apply(lengthOf, this, []) - 1; k >= 0; k -= 1) {
      const one = this[k];
      if (apply(f, that, [one, k, this])) return one;
    }
    return undefined;
  },
  findLastIndex(f, that = undefined) {
    if (!isTyped(this, f)) return apply(ofTyped.findLastIndex, this, [f, that]);
    for (let k = apply(lengthOf, this, []) - 1; k >= 0; k -= 1) if (apply(f, that, [this[k], k, this])) return k;
    return -1;
  },
  reduce(f, ...first) {
    if (!isTyped(this, f)) return apply(ofTyped.reduce, this, [f, ...first]);
    const n = apply(lengthOf, this, []);
    let k = first.length === 0 ? 1 : 0;
    let value = first.length === 0 ? this[0] : first[0];
    for (; k < n; k += 1) value = apply(f, undefined, [value, this[k], k, this]);
    return value;
  },
  reduceRight(f, ...first) {
    if (!isTyped(this, f)) return apply(ofTyped.reduceRight, this, [f, ...first]);
    const n = apply(lengthOf, this, []);
    let k = first.length === 0 ? n - 2 : n - 1;
    let value = first.length === 0 ? this[n - 1] : first[0];
    for (; k >= 0; k -= 1) value = apply(f, undefined, [value, this[k], k, this]);
    return value;
  },
};

/** @type {Record<string, ArrayLoop>} */
export const mapLoops = {
  forEach(f, that = undefined) {
    if (typeof f !== "function" || !isMap(this)) return apply(eachOfMap, this, [f, that]);
    for (const [key, value] of apply(entries, this, [])) apply(f, that, [value, key, this]);
  },
};

/** @type {Record<string, ArrayLoop>} */
export const setLoops = {
  forEach(f, that = undefined) {
    if (typeof f !== "function" || !isSet(this)) return apply(eachOfSet, this, [f, that]);
    for (const value of apply(values, this, [])) apply(f, that, [value, value, this]);
  },
};

/** A step of a loop through what an iterator of the agents' own gives. */
export const othersSteps = {
  /** @type {(this: any) => IteratorResult<unknown>} */
  next() {
    return apply(this.step, this.real, []);
  },
};

/** @type {(given: any) => any} */
let knownSteps = (given) => given;

/** @type {(real: any) => any} */
let ownSteps = (real) => real;

/**
 * Takes the functions by which `iterable` finds what stands for something.
 * @param {(given: any) => any} known for what loops go through, if none of the agents' code is needed for that
 * @param {(real: any) => any} own for an iterator of the agents' own
 */
export function takeSteps(known, own) {
  knownSteps = known;
  ownSteps = own;
}

/** @param {any} given what a `for..of`, or its like, goes through @returns {any} what stands for it */
export function iterable(given) {
  const known = knownSteps(given);
  if (known !== undefined) return known;
  const method = given === undefined || given === null ? undefined : given[iterator];
  // The engine's own text names what was to be gone through, which isn't known here.
  if (typeof method !== "function") throw new TypeError("$R isn't iterable");
  const real = apply(method, given, []);
  return ownSteps(real);
}

/** @param {any} given what is spread @returns {unknown[]} all that it has */
export function elementsOf(given) {
  const list = [];
  for (const one of given) list[list.length] = one;
  return list;
}

/** @param {any} items @returns {boolean} whether a loop goes through them as `Array.from` does */
const isGoneThrough = (items) => typeof items === "string" || isMap(items) || isSet(items)
  || (isArray(items) && !isProxy(items)) || apply(tagOf, items, []) !== undefined;

/**
 * @param {any} object
 * @param {string | symbol} key
 * @returns {unknown} the value of that property, its own or inherited; undefined if code may run when it is read
 */
function plainMember(object, key) {
  for (let at = object; at !== null; at = getPrototypeOf(at)) {
    if (isProxy(at)) return undefined;
    if (hasOwn(at, key)) return getOwnPropertyDescriptor(at, key)?.value;
  }
  return undefined;
}

/** @param {unknown} value @returns {boolean} */
const isPlainObject = (value) => typeof value === "object" && value !== null;

/** @param {any} items @returns {boolean} whether an iterator of the agents' own goes through them */
export const isOwnIterable = (items) => isPlainObject(items) && !isGoneThrough(items)
  && typeof plainMember(items, iterator) === "function";

/** @param {any} items @returns {boolean} whether they have nothing but a length and elements */
function isArrayLike(items) {
  if (typeof items !== "object" || items === null) return false;
  for (let at = items; at !== null; at = getPrototypeOf(at)) {
    if (isProxy(at) || hasOwn(at, Symbol.iterator)) return false;
  }
  return true;
}

/** @type {Record<string, (this: any, items: any, f?: any, that?: any) => any>} */
export const arrayMakers = {
  from(items, f = undefined, that = undefined) {
    const isMapped = typeof f === "function";
    const isOwn = isOwnIterable(items);
    if (this !== EngineArray || (!isMapped && (f !== undefined || !isOwn))) return apply(from, this, [items, f, that]);
    if (isArrayLike(items)) {
      const n = lengthIn(items);
      const made = new EngineArray(n);
      for (let k = 0; k < n; k += 1) made[k] = apply(f, that, [items[k], k]);
      return made;
    }
    if (!isOwn && !isGoneThrough(items)) return apply(from, this, [items, f, that]);
    const made = [];
    for (const one of items) made[made.length] = isMapped ? apply(f, that, [one, made.length]) : one;
    return made;
  },
};

/** @param {unknown} fn @param {unknown} list @returns {boolean} whether code may run while the list is made */
const isMadeHere = (fn, list) => typeof fn === "function" && list !== null
  && (typeof list === "function" || (typeof list === "object" && !(isArray(list) && !isProxy(list))));

/** @param {any} list @returns {unknown[]} its elements */
function elementsIn(list) {
  const n = lengthIn(list);
  const elements = new EngineArray(n);
  for (let k = 0; k < n; k += 1) elements[k] = list[k];
  return elements;
}

/** @type {Record<string, (this: any, self: unknown, list: any) => any>} */
export const functionCalls = {
  apply(self, list) {
    return isMadeHere(this, list) ? apply(this, self, elementsIn(list)) : apply(applied, this, [self, list]);
  },
};

/** @type {Record<string, (target: any, self: unknown, list: any) => any>} */
export const reflectCalls = {
  apply(target, self, list) {
    return isMadeHere(target, list) ? apply(target, self, elementsIn(list)) : apply(target, self, list);
  },
};

/** @type {Record<string, (this: any, value: any, replacer?: any, space?: any) => any>} */
export const jsonCalls = {
  stringify(value, replacer = undefined, space = undefined) {
    const isAsked = isPlainObject(value) && (replacer === undefined || replacer === null) && !isPlainObject(space);
    const toJSON = isAsked ? plainMember(value, "toJSON") : undefined;
    if (typeof toJSON !== "function") return apply(stringify, this, [value, replacer, space]);
    const shown = apply(toJSON, value, [""]);
    return apply(stringify, this, [{ toJSON: () => shown }, replacer, space]);
  },
};

/**
 * @param {any} emitter
 * @param {unknown} type
 * @returns {Function[]} a copy of its listeners, if the engine does nothing but call them one after the other
 */
function plainListeners(emitter, type) {
  const isNamed = (typeof type === "string" && type !== "error") || typeof type === "symbol";
  if (!isNamed || !isPlainObject(emitter) || captures === undefined) return [];
  const events = plainMember(emitter, "_events");
  if (plainMember(emitter, captures) !== false || !isPlainObject(events)) return [];
  const found = plainMember(events, /** @type {string | symbol} */ (type));
  const list = typeof found === "function" ? [found] : found;
  const listeners = [];
  if (!isArray(list) || isProxy(list)) return [];
  for (let k = 0; k < list.length; k += 1) {
    if (typeof list[k] !== "function") return [];
    listeners[k] = list[k];
  }
  return listeners;
}

/** @type {Record<string, (this: any, type: any, ...given: any[]) => any>} */
export const emitterCalls = {
  emit(type, ...given) {
    const listeners = plainListeners(this, type);
    const n = listeners.length;
    if (n === 0) return apply(emit, this, [type, ...given]);
    for (let k = 0; k < n; k += 1) apply(listeners[k], this, given);
    return true;
  },
};
