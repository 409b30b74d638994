// What was there before the agents' modules: the engine's and node's own objects. They are named, and not gone through,
// so nothing may be kept in them.

import { EventEmitter } from "node:events";
import { types } from "node:util";
import { CONSTRUCTORS } from "../../../script/kinds.mjs";
import { isObject } from "../../primordials.mjs";
import { boundOf } from "./bound-functions.mjs";
import { EVENT_CLASSES, eventKeys, eventListeners, eventMaps } from "./event-objects.mjs";
import { intlConstructors } from "./intl-objects.mjs";
import { intrinsics } from "./intrinsics.mjs";
import { ofMatches } from "./match-iteration.mjs";

// Agents find another that says of a stand-in that it is no proxy.
const { isProxy } = types;

/** Prototypes of which objects keep nothing that isn't shown. */
const PLAIN = [
  Object, Array, Map, Set, WeakMap, WeakSet, Function, Date, RegExp, ArrayBuffer, SharedArrayBuffer, Error, RangeError,
  TypeError, SyntaxError, ReferenceError, EvalError, URIError, AggregateError, DataView, TextEncoder, TextDecoder,
  EventEmitter, Boolean, Number, String, Symbol, BigInt, Promise, Reflect.getPrototypeOf(Int8Array), ...CONSTRUCTORS,
  // The prototype of a function that makes generators is a plain object.
  Reflect.getPrototypeOf(function* made() {}), Reflect.getPrototypeOf(async function* made() {}),
].map((one) => /** @type {Function} */ (one));

const KINDS = /** @type {const} */ (["value", "get", "set"]);

/** Objects of node's with symbols that no name leads to. */
const WITH_SYMBOLS = [() => new EventEmitter(), () => new TextDecoder(), () => new TextEncoder()];

/** @returns {any} the function that node binds for each listener which is called once: it keeps nothing itself */
function onceFunction() {
  const emitter = new EventEmitter().once("made", () => {});
  return boundOf(/** @type {any} */ (emitter.rawListeners("made")[0]))?.target;
}

/** V8 reads its limits for stacks in Error itself, and the recorder changes them for a moment. */
const OF_STACKS = new Set(["stackTraceLimit", "prepareStackTrace"]);

/** @typedef {{ object: object, prototype: object | null, isExtensible: boolean, members: unknown[] }} KnownObject */

/** @param {object} object @returns {unknown[]} its own keys, each with what its descriptor has */
function membersOf(object) {
  return Reflect.ownKeys(object).flatMap((key) => {
    if (object === Error && OF_STACKS.has(/** @type {string} */ (key))) return [];
    const { value, get, set, writable, enumerable, configurable } =
      /** @type {PropertyDescriptor} */ (Reflect.getOwnPropertyDescriptor(object, key));
    return [key, value, get, set, writable, enumerable, configurable];
  });
}

/** @param {object} object @returns {KnownObject} as it is now */
const known = (object) => ({
  object, prototype: Reflect.getPrototypeOf(object), isExtensible: Reflect.isExtensible(object),
  members: membersOf(object),
});

/** @param {KnownObject} before @returns {boolean} whether it is another now */
function hasChanged({ object, prototype, isExtensible, members }) {
  if (Reflect.getPrototypeOf(object) !== prototype || Reflect.isExtensible(object) !== isExtensible) return true;
  const now = membersOf(object);
  if (now.length !== members.length) return true;
  for (let at = 0; at < now.length; at += 1) if (!Object.is(now[at], members[at])) return true;
  return false;
}

export class NamedBuiltins {
  constructor() {
    /** @type {Map<object | symbol, string>} by the objects and symbols */
    this.names = new Map();
    const ofClasses = [...PLAIN, ...EVENT_CLASSES].map(({ prototype }) => prototype);
    this.plain = new Set([...ofClasses, eventMaps, eventListeners]);
    /** @type {KnownObject[]} what they had at first */
    this.had = [];
    /** @type {[object, string][]} */
    this.queue = [];
    /** @type {Set<string>} the names that were given */
    this.given = new Set();
  }

  /** @param {any} object or a symbol @param {string} path by which it is reached */
  add(object, path) {
    const isSymbol = typeof object === "symbol" && Symbol.keyFor(object) === undefined;
    if (!(isSymbol || isObject(object)) || this.names.has(object)) return;
    // Keys may be alike, as symbols with the same description are.
    const name = this.given.has(path) ? `${path} (${this.names.size})` : path;
    this.given.add(name);
    this.names.set(object, name);
    if (!isSymbol) this.queue.push([object, name]);
  }

  /** @param {object | symbol} object @returns {string | undefined} */
  nameOf(object) {
    return this.names.get(object);
  }

  /**
   * Takes all that can be reached now.
   * @param {Record<string, object>} modules of node's, by their names
   */
  take(modules) {
    this.add(globalThis, "globalThis");
    for (const [object, name] of intrinsics()) this.add(object, name);
    // Proxies stand for these functions.
    this.add(Date.prototype, "globalThis.Date.prototype");
    this.add(ofMatches, "the engine's regExpStringIterator");
    this.add(eventMaps, "a map of EventTarget");
    this.add(eventListeners, "a listener of EventTarget");
    for (const key of eventKeys) this.add(key, `key of AbortSignal ${String(key)}`);
    for (const [name, engine] of intlConstructors()) this.add(engine, `globalThis.Intl.${name}`);
    this.#addMembers(Symbol, "globalThis.Symbol");
    const once = onceFunction();
    if (once !== undefined) this.add(once, "the engine's onceWrapper");
    for (const make of WITH_SYMBOLS) for (const key of Reflect.ownKeys(make())) this.add(key, "key of node's");
    for (const [name, module] of Object.entries(modules)) this.add(module, name);
    for (let at = 0; at < this.queue.length; at += 1) {
      const [object, name] = this.queue[at];
      if (!isProxy(object)) this.#addMembers(object, name);
    }
    const objects = this.queue.map(([object]) => object);
    this.queue = [];
    this.had = objects.filter((object) => !isProxy(object)).map(known);
  }

  /** @param {object} object @param {string} name */
  #addMembers(object, name) {
    this.add(Reflect.getPrototypeOf(object), `${name}.__proto__`);
    for (const key of Reflect.ownKeys(object)) {
      this.add(key, `key of ${name}`);
      const descriptor = /** @type {any} */ (Reflect.getOwnPropertyDescriptor(object, key));
      for (const kind of KINDS) {
        const part = kind === "value" ? "" : `.${kind}`;
        if (kind in descriptor) this.add(descriptor[kind], `${name}.${String(key)}${part}`);
      }
    }
  }

  /** @returns {boolean} whether one of them has something else now, or another prototype */
  haveChanged() {
    return this.had.some(hasChanged);
  }
}
