// What loops of rewritten code go through if none of the language's own iterators is at hand: an iterator of the
// agents' own, or the keys of a `for..in`.

import { types } from "node:util";
import { apply, getPrototypeOf, isObject } from "../../primordials.mjs";
import { numberOf } from "./installed.mjs";
import { shownIteratorOf } from "./shown-iterators.mjs";

// What is put in its place takes no watched array for one.
const { isProxy } = types;

/** What a loop goes through. */
export class LoopSteps {
  [Symbol.iterator]() {
    return this;
  }

  /** @returns {IteratorResult<unknown>} */
  next() {
    return { done: true, value: undefined };
  }

  /** @returns {unknown[]} what is the same only if it does the same from now on */
  shown() {
    return [];
  }
}

/** Goes through what an iterator of the agents' own gives. */
class OthersSteps extends LoopSteps {
  /** @param {any} real the iterator */
  constructor(real) {
    super();
    this.real = real;
    this.step = real.next;
  }

  /** @returns {IteratorResult<unknown>} */
  next() {
    return apply(this.step, this.real, []);
  }

  get return() {
    const method = this.real.return;
    if (typeof method !== "function") return method;
    return () => apply(method, this.real, []);
  }

  shown() {
    return ["others", this.real, this.step];
  }
}

/** The number of the function that makes such a step. */
let numberOfStep = -1;

/**
 * Takes the function that makes a step in place of the one above: it is rewritten, so that what it calls can be shown.
 * @param {() => IteratorResult<unknown>} next
 */
export function takeStep(next) {
  OthersSteps.prototype.next = next;
  numberOfStep = numberOf(next) ?? -1;
}

/** @param {number} number of a function @returns {boolean} whether it makes such a step */
export const isStepOfOthers = (number) => number === numberOfStep;

/** The keys that a `for..in` has found: one that isn't there any more when its turn comes is left out. */
class Keys extends LoopSteps {
  /** @param {any} object */
  constructor(object) {
    super();
    this.object = object;
    /** @type {string[]} */
    this.keys = [];
    for (const key in object) this.keys.push(key);
    this.at = 0;
  }

  next() {
    while (this.at < this.keys.length) {
      const value = this.keys[this.at];
      this.at += 1;
      if (value in this.object) return { done: false, value };
    }
    return { done: true, value: undefined };
  }

  shown() {
    return ["keys", this.object, ...this.keys.slice(this.at)];
  }
}

/** What the engine's `for..in` gives, if code of the agents may take part in it. Nothing shows how far it is. */
class HiddenKeys extends LoopSteps {
  /** @param {object} object */
  constructor(object) {
    super();
    this.real = keysFrom(object);
  }

  next() {
    return this.real.next();
  }

  shown() {
    return [this.real];
  }
}

/** @param {object} object */
function* keysFrom(object) {
  for (const key in object) yield key;
}

/** @param {unknown} object @returns {boolean} whether it is a proxy, or inherits from one */
function hasProxy(object) {
  for (let at = object; isObject(at); at = getPrototypeOf(at)) if (isProxy(at)) return true;
  return false;
}

/**
 * @param {any} given what a `for..of`, or its like, goes through
 * @returns {Iterable<unknown> | undefined} what stands for it; undefined: the agents' own code is to say that
 */
export function knownSteps(given) {
  const shown = shownIteratorOf(given);
  // Of one that agents hold the `next` can be replaced, and a loop has read that before.
  return shown === given && shown !== undefined ? new OthersSteps(shown) : shown;
}

/** @param {unknown} real an iterator of the agents' own @returns {Iterable<unknown>} what stands for it */
export function ownSteps(real) {
  if (!isObject(real)) throw new TypeError("Result of the Symbol.iterator method is not an object");
  return new OthersSteps(real);
}

/** @param {unknown} given what a `for..in` goes through @returns {LoopSteps} what gives its keys */
export function keysIn(given) {
  const object = given === undefined || given === null ? {} : Object(given);
  return hasProxy(object) ? new HiddenKeys(object) : new Keys(object);
}
