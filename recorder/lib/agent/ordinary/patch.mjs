// Puts functions and other members in the place of the engine's own, and of node's. Nothing else does.

import {
  apply, construct, copyProperty, defineProperty, engineOf, getOwnPropertyDescriptor, is, likeEngine, ownKeys,
  proxyOf, put, standFor, uncurried,
} from "../../primordials.mjs";
import { watchedOf } from "./watched.mjs";

const { Error: EngineError } = globalThis;

/**
 * @param {Function} stand
 * @param {Function} engine
 * @param {string | symbol} key
 * @returns {boolean} whether both have the same value there, as functions have their names and lengths
 */
function isAlike(stand, engine, key) {
  const has = getOwnPropertyDescriptor(stand, key);
  const wanted = getOwnPropertyDescriptor(engine, key);
  return has !== undefined && wanted !== undefined && is(has.value, wanted.value) && wanted.get === undefined
    && has.writable === wanted.writable && has.enumerable === wanted.enumerable
    && has.configurable === wanted.configurable;
}

/**
 * Gives a function all that the function has for which it stands: name, length, and what node keeps there.
 * @param {Function} stand
 * @param {Function} engine
 */
function dressed(stand, engine) {
  const keys = ownKeys(engine);
  for (let at = 0; at < keys.length; at += 1) {
    const key = keys[at];
    if (key !== "prototype" && !isAlike(stand, engine, key)) copyProperty(stand, engine, key);
  }
  standFor(stand, engine);
  return stand;
}

/**
 * Puts a function in the place of an owner's own one, if it has one.
 * @param {object} owner
 * @param {string | symbol} name
 * @param {(engine: Function) => Function} make
 */
export function replace(owner, name, make) {
  const found = getOwnPropertyDescriptor(owner, name);
  if (found === undefined || typeof found.value !== "function") return;
  found.value = dressed(make(found.value), found.value);
  defineProperty(owner, name, found);
}

/**
 * Does the same for a function by which recorded memory would get to code that nobody watches. The function must be
 * there.
 * @param {Record<string, any>} owner
 * @param {string} name
 * @param {(engine: Function) => Function} make
 */
export function replaceNeeded(owner, name, make) {
  const engine = owner[name];
  if (typeof engine !== "function") throw new EngineError(`this node has no ${name} where it is watched`);
  if (getOwnPropertyDescriptor(owner, name)?.value === engine) replace(owner, name, make);
  else put(owner, name, dressed(make(engine), engine));
}

/**
 * Puts functions in the place of some of an owner's.
 * @param {object} owner
 * @template {string | symbol} Name
 * @param {readonly Name[]} names
 * @param {(engine: Function, name: Name) => Function} make
 */
export function replaceEach(owner, names, make) {
  for (let at = 0; at < names.length; at += 1) replace(owner, names[at], (engine) => make(engine, names[at]));
}

/**
 * Puts a getter in the place of an owner's own one.
 * @param {object} owner
 * @param {string | symbol} name
 * @param {(engine: Function) => { readonly asked: unknown }} make an object whose getter `asked` serves in its place
 */
export function replaceGetter(owner, name, make) {
  const found = getOwnPropertyDescriptor(owner, name);
  if (found === undefined || found.get === undefined) return;
  const { get: asked } = /** @type {{ get: () => any }} */ (getOwnPropertyDescriptor(make(found.get), "asked"));
  found.get = likeEngine(asked, found.get);
  defineProperty(owner, name, found);
}

/**
 * Puts a class in the place of an owner's own one.
 * @param {any} owner
 * @param {string} name
 * @param {(made: () => any, given: unknown[], called: Function) => object} make gets how the owner's own is made of
 *   what is given, and the function that the engine calls for it
 */
export function replaceClass(owner, name, make) {
  /** @type {Function} */
  const Engine = owner[name];
  const traps = {
    /** @param {Function} target @param {unknown[]} given @param {Function} asked */
    construct: (target, given, asked) =>
      make(() => construct(target, given, asked === StandIn ? target : asked), given, traps.construct),
  };
  /** @type {Function} */
  const StandIn = proxyOf(Engine, traps);
  put(Engine.prototype, "constructor", StandIn);
  put(owner, name, StandIn);
}

/**
 * A class, or a function, stands for another one, and so do its members for those of the same names.
 * @param {any} stand
 * @param {any} engine
 */
function standForAll(stand, engine) {
  likeEngine(stand, engine);
  for (const [mine, theirs] of [[stand, engine], [stand.prototype ?? stand, engine.prototype ?? engine]]) {
    for (const key of ownKeys(theirs)) {
      const [own, other] = [getOwnPropertyDescriptor(mine, key), getOwnPropertyDescriptor(theirs, key)];
      for (const part of /** @type {const} */ (["value", "get", "set"])) {
        const [one, instead] = [own?.[part], other?.[part]];
        if (typeof one === "function" && typeof instead === "function" && one !== instead) standFor(one, instead);
      }
    }
  }
}

/**
 * Gives an owner another member. It is listed as before; a new one is listed, as node's are.
 * @param {object} owner
 * @param {string | symbol} name
 * @param {unknown} value
 */
export function member(owner, name, value) {
  const { enumerable = true, value: engine } = getOwnPropertyDescriptor(owner, name) ?? {};
  if (typeof value === "function" && typeof engine === "function") standForAll(value, engine);
  defineProperty(owner, name, { value, writable: true, enumerable, configurable: true });
}

/**
 * Remembers which members some objects list. ES modules have what a module of node's lists.
 * @param {any[]} owners
 * @returns {() => void} lists them again, if they were replaced by others that aren't
 */
export function listingOf(owners) {
  const names = owners.map((owner) => Object.keys(owner));
  return () => owners.forEach((owner, at) => {
    for (const name of names[at]) {
      const found = getOwnPropertyDescriptor(owner, name);
      if (found !== undefined && !found.enumerable) defineProperty(owner, name, { ...found, enumerable: true });
    }
  });
}

const endsWith = uncurried(String.prototype.endsWith);

/** What the texts of the engine's own functions end with. */
const NATIVE = "{ [native code] }";

/**
 * Shows of each function that stands for another one that one's text.
 * @param {(fn: unknown) => boolean} [isNative] whether a function is shown as one of the engine's own, though node has
 *   made it
 */
export function showEngineTexts(isNative = () => false) {
  replace(Function.prototype, "toString", (engine) => methodOf((self, given) => {
    const text = apply(engine, engineOf(self), given);
    return isNative(self) && !endsWith(text, NATIVE) ? `function ${self.name}() ${NATIVE}` : text;
  }, engine));
}

/** @typedef {(engine: Function) => Function} StandInMaker what stands for a function of the engine */

/** @typedef {(self: any, given: any) => unknown} Body of a method: it gets the arguments as a list */

/**
 * What makes a method, by how many parameters it has. The engine gives it its name and length as it makes it: giving it
 * others later takes several times as long, for hundreds of functions in each thread.
 * @type {((name: string, body: Body) => Record<string, (...given: any[]) => unknown>)[]}
 */
const MAKING = [
  (name, body) => ({ [name]() { return body(this, arguments); } }),
  (name, body) => ({ [name](_first) { return body(this, arguments); } }),
  (name, body) => ({ [name](_first, _second) { return body(this, arguments); } }),
  (name, body) => ({ [name](_first, _second, _third) { return body(this, arguments); } }),
  (name, body) => ({ [name](_first, _second, _third, _fourth) { return body(this, arguments); } }),
  (name, body) => ({ [name](_first, _second, _third, _fourth, _fifth) { return body(this, arguments); } }),
  (name, body) => ({ [name](_first, _second, _third, _fourth, _fifth, _sixth) { return body(this, arguments); } }),
];

/**
 * A method, which can't be constructed, as the engine's own can't.
 * @param {Body} body
 * @param {Function} engine the function for which it stands, whose name and length it gets
 * @returns {Function}
 */
export function methodOf(body, engine) {
  const { length, name } = engine;
  return (MAKING[length] ?? MAKING[0])(name, body)[name];
}

/**
 * @callback WatchedMethod a method of typed arrays, for a watched one
 * @param {import("./watched.mjs").WatchedArray} watched
 * @param {any} self the receiver, as agents hold it
 * @param {any} first
 * @param {any} second
 * @param {any} third
 * @param {number} count how many arguments were given
 * @returns {unknown}
 */

/**
 * A method of the engine, which does something else if the receiver is watched.
 * @param {Function} engine
 * @param {WatchedMethod} method
 */
export function forWatched(engine, method) {
  return {
    /** @param {any} first @param {any} second @param {any} third */
    method(first, second, third) {
      const watched = watchedOf(this);
      if (watched === undefined) return apply(engine, this, arguments);
      return method(watched, this, first, second, third, arguments.length);
    },
  }.method;
}
