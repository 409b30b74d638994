// What rewritten modules tell about themselves while they run: their frames, the names that these have, and what their
// functions capture.

import { types } from "node:util";
import {
  apply, construct, defineProperty, getPrototypeOf, hasOwn, proxyOf, weakHas, weakSet,
} from "../../primordials.mjs";
import { noteClass } from "./first-prototypes.mjs";
import { Installed, numberOf } from "./installed.mjs";
import { keysIn } from "./loop-steps.mjs";
import { own, stamped } from "./own-objects.mjs";
import { likeArrays } from "./shown-iterators.mjs";

/** @typedef {[Environment, number]} CapturedCell a name: what it is among, and its position there */

/**
 * @typedef {object} RewrittenFunction a function of the modules
 * @property {string} id which one it is
 * @property {CapturedCell[] | null} cells what it captures
 * @property {object} [home] the object whose method it is, if its code uses `super`
 * @property {unknown[]} [keys] of a class: the names of fields that were computed
 * @property {boolean} [isHidden] whether it keeps something that can't be shown
 */

/**
 * @typedef {object} Method of a class or of an object, as it is written
 * @property {boolean} [isStatic]
 * @property {"value" | "get" | "set"} kind
 * @property {string | symbol} [key] undefined: it may be any
 * @property {CapturedCell[] | null} cells
 * @property {boolean} usesSuper
 * @property {number} [enters] the number of its function, if another member may have put another one there
 */

/** Names that can be read. */
export class Environment {
  /** @param {(index: number) => unknown} read */
  constructor(read) {
    this.read = read;
  }
}

/**
 * @typedef {object} RewrittenFrame of a function that runs
 * @property {number} id the function's number
 * @property {CapturedCell[] | null} cells what the function captures
 * @property {Record<number, Environment>} e the names of its scopes, by the scopes' numbers
 * @property {Record<number, unknown>} t what is kept while something else is evaluated, by its number
 */

/** What functions inherit from that have the `call` of all functions. */
const OF_FUNCTIONS = [() => {}, async () => {}, function* made() {}, async function* made() {}].map(getPrototypeOf);

/** What stands in a frame for a value that can't be shown. */
export const UNKNOWN_VALUE = Object.freeze({ isUnknown: true });

const { isProxy } = types;
const { Error: EngineError } = globalThis;
const { stackTraceLimit } = EngineError;

export class Runtime {
  constructor() {
    /** @type {RewrittenFrame[]} */
    this.stack = [];
    /** @type {WeakMap<Function, RewrittenFunction>} */
    this.functions = new WeakMap();
    /** @type {{ environment: Environment, indexes: number[] }[]} the names of the modules */
    this.modules = [];
    /**
     * @type {{ cls: Function, read: (object: object) => unknown[] | null }[]} what shows the private fields of classes
     */
    this.readers = [];
    /** @type {WeakMap<object, string>} the URLs of the modules whose exports an object has */
    this.namespaces = new WeakMap();
    /** Functions that the engine may call anywhere. */
    this.installed = new Installed();
    /** How many of these are of the modules themselves. */
    this.lasting = 0;
    /** @type {string | symbol} of which a function gets its name */
    this.key = "";
    /** Whether the modules are being made. */
    this.isMaking = false;
    /** What the rewritten code calls. */
    this.calls = this.#calls();
  }

  /** The modules are about to be made anew. */
  beginModules() {
    this.modules = [];
    this.readers = [];
    this.lasting = 0;
    this.stack = [];
    EngineError.stackTraceLimit = stackTraceLimit;
    this.isMaking = true;
  }

  /** The modules were made. */
  endModules() {
    this.isMaking = false;
    this.lasting = this.readers.length;
  }

  /** An agent is about to begin. */
  beginAgent() {
    this.stack = [];
    this.readers.length = this.lasting;
  }

  /** @param {RewrittenFrame} frame that is left, with those above it */
  #leave(frame) {
    const at = this.stack.lastIndexOf(frame);
    if (at >= 0) this.stack.length = at;
  }

  /** @param {Function} fn @param {RewrittenFunction} made */
  #register(fn, made) {
    if (!weakHas(this.functions, fn)) weakSet(this.functions, fn, made);
  }

  /**
   * @param {object} holder of methods
   * @param {string} id
   * @param {Method[]} methods that it has
   */
  #registerMethods(holder, id, methods) {
    for (const { cells, enters, isStatic = false, key, kind, usesSuper } of methods) {
      const home = usesSuper ? holder : undefined;
      const named = key === undefined ? `#${enters}` : `${typeof key} ${String(key)}`;
      const name = `${id} ${isStatic ? "s" : "p"} ${kind} ${named}`;
      for (const one of key === undefined ? Reflect.ownKeys(holder) : [key]) {
        const fn = Reflect.getOwnPropertyDescriptor(holder, one)?.[kind];
        if (enters === undefined || numberOf(fn) === enters) this.#register(fn, { id: name, cells, home });
      }
    }
  }

  #calls() {
    return {
      unknown: UNKNOWN_VALUE,
      /** @param {number} id @param {CapturedCell[] | null} cells @returns {RewrittenFrame} */
      enter: (id, cells) => {
        const frame = { id, cells, e: {}, t: {} };
        this.stack.push(frame);
        return frame;
      },
      /** @param {RewrittenFrame} frame */
      leave: (frame) => this.#leave(frame),
      /** @param {(index: number) => unknown} read */
      environment: (read) => new Environment(read),
      /** @param {(index: number) => unknown} read @param {number[]} indexes */
      module: (read, indexes) => void this.modules.push({ environment: new Environment(read), indexes }),
      /** @param {object} exports of a module @param {string} url */
      namespace: (exports, url) => weakSet(this.namespaces, exports, url),
      callable,
      constructible,
      likeArrays,
      // The prelude has others in place of these two, which can be shown.
      /** @type {(given: any) => any} what is gone through */
      iterable: (given) => given,
      /** @type {(given: any) => unknown[]} what is spread */
      elementsOf: (given) => [...given],
      keysIn: keptKeys,
      key,
      method,
      ...UPDATES,
      own,
      copied: (/** @type {object} */ given) => ({ ...given }),
      stamped,
      /** @param {unknown} object that gets another limit of stacks: Error has the same of a module each time */
      ownLimit: (object) => (this.isMaking && object === EngineError ? object : own(object)),
      text: (/** @type {any} */ value) => `${value}`,
      ...this.#makers(),
    };
  }

  /**
   * @param {number} id
   * @param {any} cls
   * @param {((object: object) => unknown[] | null) | null} read
   * @param {Method[]} methods
   * @param {CapturedCell[] | null} cells of what its code captures
   * @param {{ keys: unknown[], isHidden: boolean }} more the names of fields that were computed, and whether it
   * captures something that can't be shown
   */
  #takeClass(id, cls, read, methods, cells, { keys, isHidden }) {
    noteClass(cls);
    this.#register(cls, { id: `c${id}`, cells, keys, isHidden });
    this.#registerMethods(cls, `c${id}`, methods.filter(({ isStatic }) => isStatic));
    this.#registerMethods(cls.prototype, `c${id}`, methods.filter(({ isStatic }) => !isStatic));
    if (read !== null) this.readers.push({ cls, read });
  }

  /** What is called where functions, classes and objects are made. */
  #makers() {
    return {
      /**
       * @param {number} id
       * @param {CapturedCell[] | null} cells
       * @param {Function} fn
       * @param {boolean} [isHidden]
       * @param {boolean} [isNamed] whether it gets its name of the key that `named` was given last
       */
      fn: (id, cells, fn, isHidden, isNamed) => {
        this.#register(fn, { id: `f${id}`, cells, isHidden });
        if (isNamed) defineProperty(fn, "name", { value: nameOfKey(this.key), configurable: true });
        return fn;
      },
      /** @param {unknown} value @returns {string | symbol} the key that it is */
      named: (value) => {
        this.key = key(value);
        return this.key;
      },
      cls: this.#takeClass.bind(this),
      /** @param {number} id @param {object} object @param {Method[]} methods */
      obj: (id, object, methods) => {
        this.#registerMethods(object, `o${id}`, methods);
        return object;
      },
    };
  }
}

/**
 * What a call goes to: if it isn't a function, that is found after the arguments were evaluated.
 * @param {unknown} value
 * @param {string} name as the engine says it
 * @returns {Function}
 */
function callable(value, name) {
  if (typeof value === "function") return value;
  return () => {
    throw new TypeError(`${name} is not a function`);
  };
}

/**
 * The same for what is made by `new`.
 * @param {any} value
 * @param {string} name
 * @returns {Function}
 */
function constructible(value, name) {
  try {
    // Its own code doesn't run here.
    construct(proxyOf(value, { construct: () => ({}) }), []);
    return value;
  } catch {
    return function refused() {
      throw new TypeError(`${name} is not a constructor`);
    };
  }
}

/**
 * The same for a method, of which `call` is used.
 * @param {unknown} value
 * @param {string} name
 */
function method(value, name) {
  const fn = callable(value, name);
  if (!isProxy(fn) && !hasOwn(fn, "call") && OF_FUNCTIONS.includes(getPrototypeOf(fn))) return fn;
  return { call: (/** @type {unknown} */ self, /** @type {unknown[]} */ ...given) => apply(fn, self, given) };
}

/** @param {string | symbol} given a key @returns {string} what a function is called that gets its name of it */
function nameOfKey(given) {
  if (typeof given === "string") return given;
  return given.description === undefined ? "" : `[${given.description}]`;
}

/**
 * @param {RewrittenFrame} frame
 * @param {number} id
 * @returns {unknown} a value that was kept there, and isn't needed there any more
 */
function taken({ t }, id) {
  const value = t[id];
  t[id] = undefined;
  return value;
}

/** @param {any} value @returns {number | bigint} what the engine makes of it before it adds one or takes one away */
function numeric(value) {
  let one = value;
  return one++;
}

/** What changes a value by one. */
const UPDATES = {
  numeric,
  more: (/** @type {any} */ value) => (typeof value === "bigint" ? value + 1n : value + 1),
  less: (/** @type {any} */ value) => (typeof value === "bigint" ? value - 1n : value - 1),
  taken,
};

/** @param {any} value @returns {string | symbol} the key that it is among an object's members */
const key = (value) => Reflect.ownKeys({ [value]: 0 })[0];

/** What a `for..in` goes through is kept in the frame, where it can be shown. */
const keptKeys = (/** @type {RewrittenFrame} */ frame, /** @type {number} */ id, /** @type {unknown} */ given) => {
  frame.t[id] = UNKNOWN_VALUE;
  const shown = keysIn(given);
  frame.t[id] = shown;
  return shown;
};
