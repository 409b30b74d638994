// What agents hold in place of a typed array on a recorded buffer: a proxy that reports each read and write of an
// element. All but the elements are the engine's own array, behind it.

import {
  bufferOf, defineProperty, get, getOwnPropertyDescriptor, hasOwn, set, setPrototypeOf,
} from "../../primordials.mjs";
import { memoryNumber, watching } from "./context.mjs";
import { elementOf, indexIn } from "./argument-conversions.mjs";
import { Watched, arrayOn, registerArray } from "./watched.mjs";

const EngineProxy = Proxy;

// The object that has what is known about a watched array is also its proxy's handler. The traps are short, since each
// access comes through them.
class Elements extends Watched {
  // Without a constructor that is written out the engine takes its arguments through the iterator of arrays.
  /** @param {any} real @param {import("./context.mjs").WatchedPlace} place @param {number} size */
  constructor(real, place, size) {
    super(real, place, size);
  }

  /** @param {any} target @param {string | symbol} key @param {unknown} receiver */
  get(target, key, receiver) {
    if (typeof key === "string") {
      const index = indexIn(key, this.length);
      if (index >= 0) {
        const from = this.offset + index * this.size;
        watching.seen(this.place, from, from + this.size, false);
        return target[index];
      }
    }
    last = this;
    return get(target, key, receiver);
  }

  /** @param {any} target @param {string | symbol} key @param {any} value @param {unknown} receiver */
  set(target, key, value, receiver) {
    if (typeof key !== "string") return set(target, key, value, receiver);
    const index = indexIn(key, this.length);
    if (receiver !== this.standIn) return this.setElsewhere(target, key, value, receiver, index);
    // Any other number as a key takes a value too, as the engine's array does, and stores it nowhere.
    if (index < 0) return set(target, key, value, isNumeric(key) ? target : receiver);
    const element = elementOf(this.big, value);
    const from = this.offset + index * this.size;
    watching.seen(this.place, from, from + this.size, true);
    target[index] = element;
    return true;
  }

  /**
   * The write goes to another object, which may inherit from this one.
   * @param {object} target
   * @param {string} key
   * @param {unknown} value
   * @param {unknown} receiver
   * @param {number} index that the key is, or -1
   */
  setElsewhere(target, key, value, receiver, index) {
    if (index >= 0) this.reportElement(index, false);
    return set(target, key, value, receiver);
  }

  /** @param {object} target @param {string | symbol} key */
  getOwnPropertyDescriptor(target, key) {
    const index = typeof key === "string" ? indexIn(key, this.length) : -1;
    if (index >= 0) this.reportElement(index, false);
    return getOwnPropertyDescriptor(target, key);
  }

  /** @param {object} target @param {string | symbol} key @param {PropertyDescriptor} descriptor */
  defineProperty(target, key, descriptor) {
    const index = typeof key === "string" ? indexIn(key, this.length) : -1;
    if (index >= 0 && hasOwn(descriptor, "value") && isOfElement(descriptor)) {
      descriptor.value = elementOf(this.big, descriptor.value);
      this.reportElement(index, true);
    }
    return defineProperty(target, key, descriptor);
  }

  /** @param {number} index @param {boolean} writes */
  reportElement(index, writes) {
    const from = this.offset + index * this.size;
    watching.seen(this.place, from, from + this.size, writes);
  }
}
// What agents add to Object.prototype is no trap.
setPrototypeOf(Watched.prototype, null);

/** @type {Watched} whose property was asked for last: the getters of this realm's arrays look here first */
let last = new Watched({}, { block: -1, kind: -1, offset: 0, length: 0 }, 1);
last.standIn = {};

/** @param {unknown} array @returns {Watched | undefined} that array, if its property was asked for last */
export const lastAsked = (array) => (array === last.standIn ? last : undefined);

/**
 * An element is neither hidden nor fixed; the engine refuses what would make it so, and writes nothing.
 * @param {PropertyDescriptor} descriptor
 */
const isOfElement = (descriptor) => !(isFalse(descriptor, "configurable") || isFalse(descriptor, "enumerable")
  || isFalse(descriptor, "writable"));
/** @param {PropertyDescriptor} descriptor @param {"configurable" | "enumerable" | "writable"} name */
const isFalse = (descriptor, name) => hasOwn(descriptor, name) && !descriptor[name];

const { String: text } = globalThis;

/**
 * Whether a key is a number as it is printed: those are never properties of a typed array, except its elements.
 * @param {string} key
 */
const isNumeric = (key) => key === "-0" || text(+key) === key;

/**
 * What agents get for an array of the engine: itself, or a watched one if it is on a recorded buffer.
 * @param {any} real one of the typed arrays
 * @param {number} block of its buffer, or -1
 * @returns {any}
 */
export function wrapped(real, block) {
  if (block < 0) return real;
  const watched = arrayOn(real, block, Elements);
  const standIn = new EngineProxy(watched.real, watched);
  registerArray(watched, standIn);
  return standIn;
}

/** @param {object} real @returns {any} what agents get for an array, whatever its buffer is */
export const wrappedArray = (real) => wrapped(real, memoryNumber(bufferOf(real)));

/**
 * The elements of a watched array alone, for the engine's iterators: its length is the array's own, whatever a class
 * of the agents makes of it.
 */
class Listed {
  /** @param {import("./watched.mjs").WatchedArray} watched */
  constructor(watched) {
    this.watched = watched;
  }

  /** @param {any} target @param {string} key */
  get(target, key) {
    const { watched } = this;
    if (key === "length") return watched.length;
    const index = indexIn(key, watched.length);
    if (index < 0) return undefined;
    watched.reportElement(index, false);
    return target[index];
  }
}
setPrototypeOf(Listed.prototype, null);

/** @param {import("./watched.mjs").WatchedArray} watched @returns {object} an array-like, for an iterator */
export function arrayLikeOf(watched) {
  const elements = watched.elements ?? new EngineProxy(watched.real, new Listed(watched));
  watched.elements = elements;
  return elements;
}
