// Calls the loops that stand for the engine's, and the engine's, with the same random values, and compares what they
// do.

import util from "node:util";
import { parentPort, workerData } from "node:worker_threads";
import { NodePlatform } from "../../lib/every/learning/node-platform.mjs";
import { madePrelude } from "../../lib/every/learning/prelude-modules.mjs";
import { Runtime } from "../../lib/every/state/runtime.mjs";

const TypedArray = Object.getPrototypeOf(Int8Array);
const PLATFORM = new NodePlatform((what) => {
  throw new Error(what);
});

class OwnArray extends Array {}
class OtherSpecies extends Array { static get [Symbol.species]() { return Array; } }
class WrongSpecies extends Array { static get [Symbol.species]() { return /** @type {any} */ (() => 1); } }
class OddIterator extends Array { *[Symbol.iterator]() { yield 7; yield 8; } }

/** Random numbers by a seed, and what one run with them says. */
class Case {
  /** @param {number} seed */
  constructor(seed) {
    this.seed = seed;
    /** @type {string[]} */
    this.said = [];
  }

  /** @param {number} most @returns {number} a whole number below it */
  number(most) {
    this.seed = (Math.imul(this.seed, 1103515245) + 12345) & 0x7fffffff;
    return (this.seed >> 8) % most;
  }

  /** @template One @param {One[]} list @returns {One} */
  one(list) {
    return list[this.number(list.length)];
  }

  /** @param {string} what @param {unknown} [value] @returns {undefined} */
  say(what, value) {
    if (this.said.length < 500) this.said.push(`${what} ${util.inspect(value)}`);
    return undefined;
  }

  /** @returns {unknown} */
  value() {
    return this.one([0, 1, -0, NaN, "a", null, undefined, true, [1, [2]], [], {}, 3, 4]);
  }

  /** @returns {any[]} */
  list() {
    const Made = this.one([Array, Array, Array, Array, OwnArray, OtherSpecies, WrongSpecies, OddIterator]);
    const list = new Made();
    const count = this.number(6);
    for (let at = 0; at < count; at += 1) if (this.number(4) > 0) list[at] = this.value();
    if (this.number(6) === 0) list.length = count + 2;
    if (this.number(8) === 0) {
      Object.defineProperty(list, this.number(4), { get: () => this.said.push("got") && 5, configurable: true });
    }
    if (this.number(12) === 0) Object.assign(list, { constructor: this.one([undefined, null, 5, OwnArray]) });
    if (this.number(12) === 0) Object.freeze(list);
    return list;
  }

  /** @param {unknown[]} list @returns {object} a proxy that says what is asked of it */
  proxy(list) {
    const get = (/** @type {any} */ target, /** @type {string} */ key) => this.say("trap", key) ?? target[key];
    return new Proxy(list, { get, has: (target, key) => this.say("has", key) ?? key in target });
  }

  /** @returns {any} what a loop goes over */
  self() {
    const list = this.list();
    const at = this.number(20);
    if (at < 11) return list;
    const others = [
      () => null, () => undefined, () => 5, () => "ab\u{1f600}", () => ({ length: 3, 0: 1, 2: "c" }),
      () => this.proxy(list), () => new Map(/** @type {[unknown, number][]} */ ([[1, 2], [list, 3]])),
      () => new Set([1, "b", list]), () => new this.#Typed(3), () => ({ get length() { return 2; }, 1: 6 }),
      () => ({ length: this.one([-1, NaN, "2", 2.5, {}]), 0: 1 }),
      () => ({ length: -Infinity }), () => new this.#Typed(0), () => new Map(), () => [],
      () => ({ length: 2, [Symbol.iterator]: this.one([undefined, 5, () => [4, 5].values()]) }),
    ];
    return this.one(others)();
  }

  get #Typed() {
    return this.one([Int8Array, Float64Array, Uint8ClampedArray]);
  }

  /** @param {any} self @returns {any} what a loop calls */
  callback(self) {
    if (this.number(8) === 0) {
      return this.one([undefined, null, 5, "f", {}, [], Symbol("s"), class A {}, /x/]);
    }
    const throwsAt = this.number(6);
    const changesAt = this.number(8);
    let calls = 0;
    /** @param {unknown[]} given @param {unknown} [that] */
    const called = (given, that) => {
      calls += 1;
      this.say("called", [that, ...given.map((one) => (one === self ? "self" : one))]);
      if (calls === throwsAt && this.number(2) === 0) throw this.one([new RangeError("thrown"), 5, undefined]);
      if (calls === changesAt) this.change(self);
      return this.value();
    };
    /** @type {(...given: unknown[]) => unknown} */
    const arrow = (...given) => called(given);
    /** @this {unknown} @type {(...given: unknown[]) => unknown} */
    const plain = function plain(...given) { return called(given, this); };
    return this.one([
      () => plain, () => arrow, () => Object.assign(arrow, { call: 5, apply: 6 }), () => plain.bind(7),
      () => new Proxy(arrow, {}),
    ])();
  }

  /** @param {any} self that changes while a loop goes over it */
  change(self) {
    try {
      this.one([
        () => self.push(8, 9), () => self.pop(), () => self.shift(), () => { self.length = 1; },
        () => delete self[this.number(4)], () => { self[this.number(6)] = "new"; }, () => self.set?.("more", 1),
        () => self.add?.("more"), () => self.delete?.(1), () => self.clear?.(), () => { self.constructor = null; },
        () => Object.defineProperty(self, "2", { get: () => this.said.push("got late") && 1, configurable: true }),
      ])();
    } catch (error) {
      this.say("can't change", /** @type {Error} */ (error).name);
    }
  }
}

/** @param {number} seed @param {Function} loop @param {string} name @returns {string[]} what it says */
function saidBy(seed, loop, name) {
  const one = new Case(seed);
  const self = one.self();
  const f = one.callback(self);
  const isMaker = name === "from";
  const given = isMaker ? [self, f] : [f];
  if (one.number(3) === 0) given.push(one.one([undefined, null, 5, "that", {}]));
  if (one.number(20) === 0) given.length = 0;
  const that = isMaker ? one.one([Array, Array, Array, OwnArray, undefined, Object]) : self;
  try {
    one.say("returns", Reflect.apply(loop, that, given));
  } catch (error) {
    one.say("throws", error instanceof Error ? `${error.name}: ${error.message}` : error);
  }
  one.say("left", self);
  return one.said;
}

/** @param {Record<string, Function>} loops @param {any} engine what has the engine's @param {number} count */
function* compared(loops, engine, count) {
  for (const [name, loop] of Object.entries(loops)) {
    for (let seed = 1; seed <= count; seed += 1) {
      const [mine, others] = [loop, engine[name]].map((one) => saidBy(seed * 7919, one, name).join("\n"));
      if (mine !== others) yield `${name}, ${seed}:\n${mine}\n--- the engine:\n${others}`;
    }
  }
}

/** @param {Function} sort @param {number[]} list @returns {string} what it compares, and returns */
function sortedBy(sort, list) {
  /** @type {number[][]} */
  const pairs = [];
  const made = sort.call([...list], (/** @type {number} */ one, /** @type {number} */ other) => {
    pairs.push([one, other]);
    return (one >> 2) - (other >> 2);
  });
  return JSON.stringify([pairs, made]);
}

/** @param {Record<string, Function>} loops @yields {string} lists for which they compare others than the engine */
function* sortsCompared({ sort, toSorted }) {
  const random = new Case(1);
  for (let length = 0; length < 140; length += 1) {
    const list = Array.from({ length: length >> 1 }, () => random.number(length));
    const engines = /** @type {any} */ (list);
    for (const [mine, engine] of [[sort, engines.sort], [toSorted, engines.toSorted]]) {
      if (sortedBy(mine, list) !== sortedBy(engine, list)) yield `sort of ${list}`;
    }
  }
}

/**
 * What is looked for in a text.
 * @type {any[]}
 */
const PATTERNS = [
  "b", "", "ab", /a/g, /b(c)?/, /(?<x>[ab])(?<y>c)?/g, /$/g, /^/gm, /(?:)/gu, /[^c]/gy, /c/y, /\u{1f600}/gu, null, 5,
  { toString: () => "a" }, { [Symbol.replace]: () => "own" },
];

/** @param {Function} replaces @param {number} seed @returns {string} what it calls with, and returns */
function replacedBy(replaces, seed) {
  const one = new Case(seed);
  const text = one.one(["", "a", "abcab", "aab\u{1f600}c\nb", new String("ab"), 5, null]);
  const pattern = one.one(PATTERNS);
  if (pattern instanceof RegExp) pattern.lastIndex = one.number(3);
  const by = one.one([one.callback("self"), one.callback("self"), one.callback("self"), "-$&-", undefined]);
  try {
    one.say("returns", Reflect.apply(replaces, text, [pattern, by]));
  } catch (error) {
    one.say("throws", error instanceof Error ? `${error.name}: ${error.message}` : error);
  }
  one.say("left", pattern?.lastIndex);
  return one.said.join("\n");
}

/** @param {Record<string, Function>} calls @param {number} count @yields {string} what they do otherwise */
function* replacesCompared(calls, count) {
  for (const [name, replaces] of Object.entries(calls)) {
    for (let seed = 1; seed <= count; seed += 1) {
      const [mine, others] = [replaces, /** @type {any} */ (String.prototype)[name]].map((one) =>
        replacedBy(one, seed * 104729));
      if (mine !== others) yield `${name}, ${seed}:\n${mine}\n--- the engine:\n${others}`;
    }
  }
}

const { prelude } = madePrelude(PLATFORM, new Runtime());
const { arrayLoops, typedLoops, mapLoops, setLoops, arrayMakers, stringCalls } = prelude;
const { count } = workerData;
parentPort?.postMessage([
  ...compared(arrayLoops, Array.prototype, count), ...compared(typedLoops, TypedArray.prototype, count),
  ...compared(mapLoops, Map.prototype, count), ...compared(setLoops, Set.prototype, count),
  ...compared(arrayMakers, Array, count), ...sortsCompared(arrayLoops),
  ...replacesCompared(stringCalls, count),
]);
