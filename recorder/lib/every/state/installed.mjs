// Functions that agents make getters, setters or traps of proxies by a call. The engine may call one of them anywhere,
// and what it does afterwards isn't shown.

import { types } from "node:util";
import { methodOf, replace } from "../../agent/ordinary/patch.mjs";
import { watchedOf } from "../../agent/ordinary/watched.mjs";
import { apply, construct, getOwnPropertyDescriptor, isObject, ownKeys, proxyOf, put } from "../../primordials.mjs";
import { own } from "./own-objects.mjs";

/** A proxy hands on to its target what is done to it. */
const MAKES_PROXY = "makes a proxy of";

const { toString: textOf } = Function.prototype;
const ENTERS = /\$R\.enter\((\d+),/g;

/**
 * Functions in a function have greater numbers, and may come first in its text.
 * @param {unknown} fn
 * @returns {number | undefined} the number of this function of the modules
 */
export function numberOf(fn) {
  if (typeof fn !== "function") return undefined;
  const found = [...apply(textOf, fn, []).matchAll(ENTERS)].map(([, number]) => Number(number));
  return found.length === 0 ? undefined : Math.min(...found);
}

/** Names of members that the engine may read by itself. Symbols are such names, too. */
const READ_BY_ENGINE = new Set(["constructor", "toJSON", "toString", "valueOf"]);

/** @typedef {"get" | "set" | "any"} InstalledUse how the engine calls such a function */

export class Installed {
  /** @type {Map<number, InstalledUse>} by the numbers of these functions */
  #uses = new Map();

  /** Whether any function may be one of them. */
  #isAny = false;

  /** @param {number} number of a function @returns {boolean} whether it may be one of them */
  has(number) {
    return this.#isAny || this.#uses.has(number);
  }

  /**
   * @param {number} number of a function
   * @returns {boolean} whether it is only called where code has the member that it was made for, and either as its
   * getter or as its setter
   */
  isOfMember(number) {
    const use = this.#isAny ? "any" : this.#uses.get(number);
    return use === "get" || use === "set";
  }

  /** Something was made of which it isn't known what the engine calls for it. */
  takeAny() {
    this.#isAny = true;
  }

  /** @param {unknown} object @param {(string | symbol)[]} keys of properties that it has got */
  take(object, keys) {
    if (!isObject(object)) return;
    if (types.isProxy(object)) this.#isAny = true;
    if (this.#isAny) return;
    for (const key of keys) {
      // To ask a watched array for an element would be to read it.
      const holder = watchedOf(object)?.real ?? object;
      const { get, set } = getOwnPropertyDescriptor(holder, key) ?? {};
      const isRead = typeof key === "symbol" || READ_BY_ENGINE.has(key);
      if (get !== undefined) this.#add(get, isRead ? "any" : "get");
      if (set !== undefined) this.#add(set, isRead ? "any" : "set");
    }
  }

  /** @param {Function} fn @param {InstalledUse} use */
  #add(fn, use) {
    const number = numberOf(fn);
    if (number === undefined) this.#isAny = true;
    else this.#uses.set(number, [use, undefined].includes(this.#uses.get(number)) ? use : "any");
  }
}

let current = new Installed();

/** @returns {Installed} what gets the functions that are made so from now on */
export function beginInstalled() {
  current = new Installed();
  return current;
}

/** @param {Function} engine what defines one property */
const takesOne = (engine) => methodOf((self, given) => {
  const made = apply(engine, self, given);
  const [object, key] = given;
  // An object can become another key each time.
  if (isObject(key)) current.takeAny();
  else current.take(object, [key]);
  return made;
}, engine);

/** @param {Function} engine what defines many properties */
const takesMany = (engine) => methodOf((self, given) => {
  const made = apply(engine, self, given);
  const [, properties] = given;
  if (types.isProxy(properties)) current.takeAny();
  else if (isObject(properties)) current.take(made, ownKeys(properties));
  return made;
}, engine);

/** @param {Function} engine what gives the object that it is called on a getter or a setter */
export const takesAccessor = (engine) => methodOf((self, given) => {
  const made = apply(engine, self, given);
  if (isObject(given[0])) current.takeAny();
  else current.take(self, [given[0]]);
  return made;
}, engine);

/** @param {Function} engine what makes a proxy, whose traps can change at any time */
const takesProxy = (engine) => methodOf((self, given) => {
  own(given[0], MAKES_PROXY);
  current.takeAny();
  return apply(engine, self, given);
}, engine);

/** Sees what agents make so. It is called once, before any of their code is loaded. */
export function watchInstalled() {
  for (const owner of [Object, Reflect]) replace(owner, "defineProperty", takesOne);
  for (const name of ["create", "defineProperties"]) replace(Object, name, takesMany);
  const { Proxy: EngineProxy } = globalThis;
  replace(EngineProxy, "revocable", takesProxy);
  put(globalThis, "Proxy", proxyOf(EngineProxy, {
    construct: (target, given) => {
      own(given[0], MAKES_PROXY);
      current.takeAny();
      return construct(target, given);
    },
  }));
}
