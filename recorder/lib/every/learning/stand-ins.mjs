// What stands for objects of node's in the agents' realm: it may be named, compared and handed on, and refuses when it
// is reached.

import {
  apply, defineProperty, getOwnPropertyDescriptor, getPrototypeOf, isObject, likeEngine, ownKeys, proxyOf,
} from "../../primordials.mjs";
import { addOwn } from "../state/own-objects.mjs";

/** @typedef {(what: string) => never} EndAgents ends what agents do */

/** @type {(keyof ProxyHandler<any>)[]} */
const TRAPS = [
  "apply", "construct", "defineProperty", "deleteProperty", "get", "getOwnPropertyDescriptor", "getPrototypeOf", "has",
  "isExtensible", "ownKeys", "preventExtensions", "set", "setPrototypeOf",
];

/** @typedef {Set<string | symbol> | "all"} TakenMembers the names of members that are as they were */

/** @typedef {Record<string, unknown>} GivenMembers what is in the place of members, by their names */

export class StandIns {
  /** @param {EndAgents} refuse */
  constructor(refuse) {
    this.refuse = refuse;
    /** @type {Map<object, object>} by what they stand for */
    this.known = new Map();
    /** @type {Record<string, object>} what getters of globals return, by their names */
    this.globals = {};
  }

  /**
   * @param {any} value
   * @param {string} name of it
   * @param {(keyof ProxyHandler<any>)[]} [traps] what refuses
   * @returns {any} the same, if it is no object
   */
  of(value, name, traps = TRAPS) {
    if (!isObject(value)) return value;
    const known = this.known.get(value);
    if (known !== undefined) return known;
    const refuses = () => this.refuse(`it uses \`${name}\``);
    const made = proxyOf(value, Object.fromEntries(traps.map((trap) => [trap, refuses])));
    this.known.set(value, made);
    // It is what it stands for.
    this.known.set(made, made);
    addOwn(made, name);
    return made;
  }

  /**
   * @param {PropertyDescriptor} found a member of node's
   * @param {string} name
   * @returns {PropertyDescriptor} what stands for it
   */
  #member(found, name) {
    const refuses = () => this.refuse(`it reads \`${name}\``);
    const { value, get, set, enumerable, configurable } = found;
    if (isObject(value)) return { ...found, value: this.of(value, name) };
    if (get === undefined && set === undefined) return { get: refuses, set: refuses, enumerable, configurable };
    return { ...found, get: get && likeEngine(refuses, get), set: set && likeEngine(refuses, set) };
  }

  /**
   * @param {any} owner an object of node's
   * @param {string} name of it
   * @param {TakenMembers} taken
   * @param {GivenMembers} given
   * @param {object} [made] what gets its members
   * @returns {any} an object with all that it has, or inherits
   */
  object(owner, name, taken, given = {}, made = {}) {
    for (let at = owner; at !== null && at !== Object.prototype; at = getPrototypeOf(at)) {
      for (const key of ownKeys(at)) this.#put(made, key, at, name, taken, given);
    }
    return made;
  }

  /**
   * Lets members of an object refuse that is used as it is.
   * @param {any} owner
   * @param {string} name
   * @param {TakenMembers} taken
   */
  members(owner, name, taken) {
    for (const key of ownKeys(owner)) {
      const found = /** @type {PropertyDescriptor} */ (getOwnPropertyDescriptor(owner, key));
      const isTaken = taken === "all" || taken.has(key) || key === "prototype" || typeof key === "symbol";
      if (isTaken || !found.configurable) continue;
      const isOther = isObject(found.value) || found.get !== undefined;
      if (isOther) defineProperty(owner, key, this.#member(found, `${name}.${key}`));
    }
  }

  /**
   * @param {object} made
   * @param {string | symbol} key
   * @param {any} owner
   * @param {string} name
   * @param {TakenMembers} taken
   * @param {GivenMembers} given
   */
  #put(made, key, owner, name, taken, given) {
    if (getOwnPropertyDescriptor(made, key) !== undefined || key === "constructor") return;
    const found = /** @type {PropertyDescriptor} */ (getOwnPropertyDescriptor(owner, key));
    const { enumerable, configurable } = found;
    if (typeof key === "string" && Object.hasOwn(given, key)) {
      defineProperty(made, key, { value: given[key], writable: true, enumerable, configurable });
    } else if (taken === "all" || taken.has(key) || key === Symbol.toStringTag) defineProperty(made, key, found);
    else if (typeof key === "string") defineProperty(made, key, this.#member(found, `${name}.${key}`));
  }

  /**
   * Puts something in the place of a global.
   * @param {string | symbol} key
   * @param {unknown} [given] undefined: what refuses when it is reached
   */
  global(key, given) {
    const name = String(key);
    const found = /** @type {PropertyDescriptor} */ (getOwnPropertyDescriptor(globalThis, key));
    const { get, set, value } = found;
    if (get === undefined) {
      defineProperty(globalThis, key, { ...found, value: given ?? this.of(value, name) });
      return;
    }
    if (isObject(given)) this.globals[`globalThis.${name}`] = given;
    // Node makes some of them, and puts them there, when they are read first.
    const read = () => {
      const engine = this.of(apply(get, globalThis, []), name);
      defineProperty(globalThis, key, mine);
      return engine;
    };
    const setter = set && likeEngine(() => this.refuse(`it sets \`${name}\``), set);
    const mine = { ...found, get: likeEngine(given === undefined ? read : () => given, get), set: setter };
    defineProperty(globalThis, key, mine);
  }
}
