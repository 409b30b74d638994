// Values as a text: two texts are the same only if the values are, except for which objects they are.

import { types } from "node:util";
import { anyWatchedOf } from "../../agent/ordinary/watched.mjs";
import { blockNumber } from "../../agent/ordinary/context.mjs";
import { getOwnPropertyDescriptor, slotOf, stringify } from "../../primordials.mjs";
import { hexOf } from "../search/raw-elements.mjs";
import { boundOf } from "./bound-functions.mjs";
import { hadOtherPrototype } from "./first-prototypes.mjs";
import { signalOf } from "./event-objects.mjs";
import { intlOf } from "./intl-objects.mjs";
import { LoopSteps } from "./loop-steps.mjs";
import { CantShow, boxedIn, bytesIn, isResizable, objectKind, numberText, patternOf, timeOf } from "./object-kinds.mjs";
import { isMadeByAgents } from "./made-symbols.mjs";
import { settledOf } from "./promises.mjs";
import { isUnnamed } from "./own-objects.mjs";
import { UNKNOWN_VALUE } from "./runtime.mjs";
import { iterationOf } from "./shown-iterators.mjs";
import { templateNumber } from "./templates.mjs";
import { weakEntriesOf } from "./weak-entries.mjs";

/** @typedef {import("./runtime.mjs").CapturedCell} CapturedCell */
/**
 * @typedef {{ object: object, shown: Set<unknown>, hasValues: boolean }} Weak a WeakMap or a WeakSet, and its keys that
 * were shown
 */

// Agents find another that says of a stand-in that it is no proxy.
const { isProxy } = types;
const TypedArray = Reflect.getPrototypeOf(Int8Array.prototype) ?? Int8Array.prototype;
const OF_ARRAYS = ["length", "byteOffset", "buffer"].map((name) => slotOf(TypedArray, name));
const OF_VIEWS = ["byteLength", "byteOffset", "buffer"].map((name) => slotOf(DataView.prototype, name));
const tagOf = /** @type {PropertyDescriptor} */ (getOwnPropertyDescriptor(TypedArray, Symbol.toStringTag)).get;
const stackOfErrors = /** @type {PropertyDescriptor} */ (getOwnPropertyDescriptor(new Error("stack"), "stack"));
const entriesOf = Map.prototype.entries;
const valuesOf = Set.prototype.values;

export class Walk {
  /**
   * @param {import("./runtime.mjs").Runtime} runtime
   * @param {import("./named-builtins.mjs").NamedBuiltins} builtins
   * @param {{ hides?: string }} how what is left out on purpose, so that tests see that they notice it
   */
  constructor(runtime, builtins, { hides }) {
    this.runtime = runtime;
    this.builtins = builtins;
    this.hides = hides;
    /** @type {(string | number)[]} */
    this.out = [];
    /** @type {Map<unknown, number>} numbers of objects and symbols, in the order in which they are found */
    this.seen = new Map();
    /** @type {Map<object, Map<number, number>>} numbers of cells */
    this.cells = new Map();
    this.cellCount = 0;
    /** @type {object[]} */
    this.queue = [];
    /** @type {Weak[]} */
    this.weak = [];
    /** @type {Map<object, Function>} functions, by their prototypes that nothing was put into */
    this.bare = new Map();
    /** Whether it has read where an error was made: the engine makes a text of that then, which stays as it is. */
    this.hasReadStack = false;
  }

  /** @returns {string} what was walked, with all that can be reached from it */
  text() {
    for (let at = 0; at < this.queue.length || this.#walkWeak(); at += 1) {
      if (at < this.queue.length) this.#object(this.queue[at]);
      else at -= 1;
    }
    // Whether such a prototype is one that can be reached in another way.
    for (const [prototype, fn] of this.bare) {
      if (this.seen.has(prototype)) this.out.push(`b${this.seen.get(fn)}=${this.seen.get(prototype)}`);
    }
    return this.out.join(" ");
  }

  /** @param {string | number} text */
  put(text) {
    this.out.push(text);
  }

  /** @param {unknown} value */
  value(value) {
    switch (typeof value) {
      case "undefined": this.out.push("u"); return;
      case "boolean": this.out.push(value ? "t" : "f"); return;
      case "number": this.out.push(numberText(value)); return;
      case "bigint": this.out.push(`${value}n`); return;
      case "string": this.out.push(stringify(value)); return;
      case "symbol": this.out.push(this.#symbol(value)); return;
      default:
    }
    if (value === null) this.out.push("0l");
    else this.#reference(/** @type {object} */ (value));
  }

  /** @param {symbol} symbol */
  #symbol(symbol) {
    const key = Symbol.keyFor(symbol);
    if (key !== undefined) return `y${stringify(key)}`;
    const name = this.builtins.nameOf(symbol);
    if (name !== undefined) return `Y${name}`;
    if (!isMadeByAgents(symbol)) throw new CantShow("a symbol of node's");
    const isKnown = this.seen.has(symbol);
    const number = this.#number(symbol);
    return isKnown ? `y#${number}` : `y@${number}${stringify(symbol.description)}`;
  }

  /** @param {object} object */
  #reference(object) {
    const name = this.builtins.nameOf(object);
    if (name !== undefined) {
      if (name === "globalThis.RegExp") throw new CantShow("the function RegExp, which keeps what was found last");
      this.out.push(`k${name}`);
      return;
    }
    const url = this.runtime.namespaces.get(object);
    if (url !== undefined) {
      this.out.push(`N${stringify(url)}`);
      return;
    }
    const known = this.seen.get(object);
    this.out.push(known === undefined ? `@${this.#number(object)}` : `#${known}`);
    if (known === undefined) this.queue.push(object);
  }

  /** @param {unknown} one */
  #number(one) {
    const known = this.seen.get(one);
    if (known !== undefined) return known;
    this.seen.set(one, this.seen.size);
    return this.seen.size - 1;
  }

  /** @param {CapturedCell} cell */
  cell([environment, index]) {
    if (environment === undefined) {
      this.out.push("none");
      return;
    }
    const cells = this.cells.get(environment) ?? new Map();
    this.cells.set(environment, cells);
    const known = cells.get(index);
    if (known !== undefined) {
      this.out.push(`*${known}`);
      return;
    }
    cells.set(index, this.cellCount);
    this.cellCount += 1;
    this.out.push("&");
    let value;
    try {
      value = environment.read(index);
    } catch (error) {
      if (!(error instanceof ReferenceError)) throw error;
      this.out.push("unset");
      return;
    }
    this.value(value);
  }

  /**
   * What a WeakMap has for objects that can be reached. Agents can get at one only if it was met here, if it was
   * there before their code, if it is the prototype of a function, or if it is of their code's text. For all others
   * there is no key any more that a WeakMap could be asked with. A function may be called by a place of the text that
   * has no other name for it, as a private method is.
   * @returns {boolean} whether there was something new
   */
  #walkWeak() {
    const { length } = this.out;
    for (const weak of this.weak) {
      const entries = weakEntriesOf(weak.object).filter(([key]) => !weak.shown.has(key));
      const met = entries.flatMap(([key, value]) => {
        const place = this.#placeOf(key);
        return place === undefined ? [] : [{ key, value, place }];
      });
      for (const { key, value } of met.sort((one, other) => (one.place < other.place ? -1 : 1))) {
        weak.shown.add(key);
        this.out.push(`w${this.seen.get(weak.object)}`);
        this.value(key);
        if (weak.hasValues) this.value(value);
      }
    }
    if (this.out.length > length) return true;
    for (const { object, shown } of this.weak) {
      const isAny = weakEntriesOf(object).some(([key]) => !shown.has(key) && mayBeThere(key));
      if (isAny) throw new CantShow("a WeakMap or a WeakSet with a key that isn't known");
    }
    return false;
  }

  /** @param {any} key @returns {string | undefined} what it comes by in the order of keys, if it can be reached */
  #placeOf(key) {
    const number = this.seen.get(key) ?? this.seen.get(this.bare.get(key));
    if (number !== undefined) return `${String(number).padStart(9, "0")}${this.seen.has(key) ? "" : "b"}`;
    const name = this.builtins.nameOf(key) ?? this.runtime.namespaces.get(key);
    if (name !== undefined) return `k${name}`;
    const template = templateNumber(key);
    return template === undefined ? undefined : `T${String(template).padStart(9, "0")}`;
  }

  /** @param {any} object */
  #object(object) {
    this.out.push("{");
    const template = templateNumber(object);
    if (template !== undefined) {
      this.out.push(`T${template}`);
      this.#private(object);
      return;
    }
    if (object === UNKNOWN_VALUE) throw new CantShow("how a `try` was left, or how far a loop is");
    if (object instanceof LoopSteps) {
      this.out.push("steps");
      for (const one of object.shown()) this.value(one);
      return;
    }
    const watched = anyWatchedOf(object);
    const isMemory = watched === undefined && (types.isAnyArrayBuffer(object) || ArrayBuffer.isView(object));
    if (watched !== undefined) this.#watched(object, watched);
    else if (isProxy(object)) throw new CantShow("a proxy");
    else if (typeof object === "function") this.#function(object);
    else if (isMemory) this.#memory(object);
    else this.#content(object);
    this.#prototype(object);
    if (!Reflect.isExtensible(object)) this.out.push("!x");
    if (stackOfErrors.get !== undefined && watched === undefined) this.#keptStack(object);
    this.#private(object);
    if (watched === undefined && !isMemory && typeof object !== "function") this.#properties(object);
  }

  /** @param {object} object as agents have it @param {import("../../agent/ordinary/watched.mjs").Watched} watched */
  #watched(object, { real, buffer, place: { block, kind, offset, length } }) {
    this.out.push("view", block, kind, offset, length);
    this.value(buffer);
    if (types.isTypedArray(real)) this.#others(real, length);
    else this.#others(object, 0);
  }

  /** @param {object} object with elements @param {number} length how many they are */
  #others(object, length) {
    const keys = Reflect.ownKeys(object);
    for (const key of keys.slice(length)) this.#property(object, key);
  }

  /** @param {Function} fn */
  #function(fn) {
    const made = this.runtime.functions.get(fn);
    const bound = made === undefined ? boundOf(fn) : undefined;
    if (bound !== undefined) {
      this.out.push(bound.kind, bound.given.length);
      this.value(bound.target);
      for (const one of bound.given) this.value(one);
      for (const key of Reflect.ownKeys(fn)) this.#property(fn, key);
      return;
    }
    if (made === undefined) throw new CantShow(`${functionText(fn)}, which isn't of the modules`);
    if (made.isHidden === true) throw new CantShow("a function with a `super` or with names that aren't shown");
    this.out.push(made.id);
    for (const key of made.keys ?? []) this.value(key);
    if (made.home !== undefined) this.value(made.home);
    if (made.cells !== null && this.hides !== "closures") for (const cell of made.cells) this.cell(cell);
    for (const key of Reflect.ownKeys(fn)) {
      if (key === "prototype" && this.#hasBarePrototype(fn)) continue;
      this.#property(fn, key);
    }
  }

  /** @param {Function} fn @returns {boolean} whether its prototype is as the engine has made it */
  #hasBarePrototype(fn) {
    const own = /** @type {PropertyDescriptor} */ (getOwnPropertyDescriptor(fn, "prototype"));
    const prototype = own.value;
    if (typeof prototype !== "object" || prototype === null || !own.writable) return false;
    const maker = getOwnPropertyDescriptor(prototype, "constructor");
    const isOwn = Reflect.getPrototypeOf(prototype) !== Object.prototype || !Reflect.isExtensible(prototype);
    if (isOwn || Reflect.ownKeys(prototype).length > 1 || maker?.value !== fn) return false;
    if (maker.enumerable || !maker.writable || !maker.configurable) return false;
    if (this.#isStamped(prototype)) return false;
    this.bare.set(prototype, fn);
    return true;
  }

  /** @param {any} object */
  #content(object) {
    const kind = objectKind(object);
    if (kind !== "iterator" && hadOtherPrototype(object)) throw new CantShow("an object that had another prototype");
    if (kind !== "") this.out.push(kind);
    switch (kind) {
      case "Map": case "Set": this.#entries(object, kind === "Map"); return;
      case "Date": this.out.push(numberText(timeOf(object))); return;
      case "RegExp": this.out.push(patternOf(object)); return;
      case "Promise": this.#settled(object); return;
      case "boxed": this.value(boxedIn(object)); return;
      case "iterator": this.#iteration(object); return;
      case "Intl": this.out.push(stringify(intlOf(object))); return;
      case "WeakMap": this.weak.push({ object, shown: new Set(), hasValues: true }); return;
      case "WeakSet": this.weak.push({ object, shown: new Set(), hasValues: false }); return;
      default:
    }
  }

  /** @param {Promise<unknown>} promise */
  #settled(promise) {
    const { isRejected, value } = settledOf(promise);
    this.out.push(isRejected ? "rejected" : "fulfilled");
    this.value(value);
  }

  /** @param {object} object an iterator */
  #iteration(object) {
    const { kind, of, at } = /** @type {import("./shown-iterators.mjs").Iteration} */ (iterationOf(object));
    this.out.push(`iterator ${kind}`, at);
    this.value(of);
  }

  /** @param {any} object a Map or a Set @param {boolean} isMap */
  #entries(object, isMap) {
    let count = 0;
    for (const each of isMap ? entriesOf.call(object) : valuesOf.call(object)) {
      this.out.push("-");
      count += 1;
      if (isMap) each.forEach((/** @type {unknown} */ one) => this.value(one));
      else this.value(each);
    }
    this.out.push(`=${count}`);
  }

  /** @param {any} object a buffer, or a view on one */
  #memory(object) {
    if (types.isTypedArray(object)) {
      const [length, offset, buffer] = OF_ARRAYS.map((read) => read(object));
      this.out.push(String(tagOf?.call(object)), offset, length);
      this.value(buffer);
      this.#others(object, length);
      return;
    }
    this.#others(object, 0);
    if (ArrayBuffer.isView(object)) {
      bytesIn(OF_VIEWS[2](object));
      const [length, offset, buffer] = OF_VIEWS.map((read) => read(object));
      this.out.push("DataView", offset, length);
      this.value(buffer);
    } else if (types.isSharedArrayBuffer(object)) {
      const block = blockNumber(object);
      if (block < 0) throw new CantShow("shared memory of its own");
      this.out.push(`block${block}`);
    } else this.#buffer(object);
  }

  /** @param {ArrayBuffer} buffer */
  #buffer(buffer) {
    if (isResizable(buffer)) throw new CantShow("a buffer that can be resized");
    const bytes = bytesIn(buffer);
    this.out.push(hexOf(bytes, 0, bytes.length), bytes.length);
  }

  /** @param {object} object */
  #prototype(object) {
    const prototype = Reflect.getPrototypeOf(object);
    const name = prototype === null ? undefined : this.builtins.nameOf(prototype);
    const isTyped = anyWatchedOf(object) !== undefined || ArrayBuffer.isView(object);
    const isOfPlain = this.builtins.plain.has(/** @type {any} */ (prototype));
    const signal = isOfPlain || name === undefined ? undefined : signalOf(object);
    if (signal !== undefined) this.value(signal);
    const isPlain = name === undefined || isTyped || isOfPlain || types.isAnyArrayBuffer(object) || signal !== undefined
      || iterationOf(object) !== undefined || intlOf(object) !== undefined;
    if (!isPlain && typeof object !== "function") throw new CantShow(`an object of ${name}`);
    this.value(prototype);
  }

  /** @param {object} object */
  #private(object) {
    if (this.hides === "privates") return;
    for (const { cls, read } of this.runtime.readers) {
      const found = read(object);
      if (found === null) continue;
      this.out.push("private");
      this.value(cls);
      for (const value of found) this.value(value);
    }
  }

  /** @param {object} object @returns {boolean} whether it has private fields */
  #isStamped(object) {
    return this.runtime.readers.some(({ read }) => read(object) !== null);
  }

  /** @param {object} object */
  #properties(object) {
    const isError = types.isNativeError(object);
    for (const key of Reflect.ownKeys(object)) {
      if (isError && key === "stack") this.#stack(object);
      else this.#property(object, key);
    }
  }

  /** @param {object} error with a stack of its own */
  #stack(error) {
    const { value, get, set, writable, enumerable, configurable } =
      /** @type {PropertyDescriptor} */ (getOwnPropertyDescriptor(error, "stack"));
    const isPlain = get === stackOfErrors.get && set === stackOfErrors.set && (get !== undefined || writable === true);
    if (!isPlain || enumerable || !configurable) throw new CantShow("an error whose stack was changed");
    this.hasReadStack = true;
    if (get === undefined) this.value(value);
  }

  /** @param {object} object that keeps a stack out of sight, maybe: newer versions of node read it by a function */
  #keptStack(object) {
    const stack = Reflect.apply(/** @type {Function} */ (stackOfErrors.get), object, []);
    if (stack === undefined) return;
    this.hasReadStack = true;
    this.out.push("stack");
    this.value(stack);
  }

  /** @param {object} object @param {string | symbol} key */
  #property(object, key) {
    const descriptor = /** @type {PropertyDescriptor} */ (getOwnPropertyDescriptor(object, key));
    const { value, get, set, writable, enumerable, configurable } = descriptor;
    this.value(key);
    this.out.push(`${writable ? "" : "r"}${enumerable ? "" : "e"}${configurable ? "" : "c"}.`);
    if (key === "stack" && typeof value === "string") this.hasReadStack = true;
    if (!Object.hasOwn(descriptor, "get")) this.value(value);
    else {
      this.out.push("get");
      this.value(get);
      this.value(set);
    }
  }
}

/** @param {Function} fn @returns {string} what it is called, if that is a text: no code of agents runs for it */
function functionText(fn) {
  const name = getOwnPropertyDescriptor(fn, "name")?.value;
  return typeof name === "string" && name !== "" ? `the function ${name}` : "a function";
}

/**
 * @param {any} key that wasn't met
 * @returns {boolean} whether agents may get at it all the same: a function or a prototype that isn't of the modules, a
 * symbol that such an object has, or strings of a template
 */
function mayBeThere(key) {
  if (typeof key === "symbol" || typeof key === "function") return true;
  return isUnnamed(key) || (!isProxy(key) && Array.isArray(key) && !Reflect.isExtensible(key));
}
