// Objects that got another prototype than their first. What an object of the engine's or of node's keeps out of sight
// is known by its first prototype, which its constructor gives it: so it is noted when such an object gets another one.
// That makes the walk of values complete for all that the engine or node can make, however it is called.

import nodeUtil from "node:util";
import { methodOf, replace } from "../../agent/ordinary/patch.mjs";
import { boundOf } from "./bound-functions.mjs";
import {
  apply, defineProperty, getOwnPropertyDescriptor, getPrototypeOf, isObject, ownKeys, uncurried,
} from "../../primordials.mjs";

/** @typedef {import("./named-builtins.mjs").NamedBuiltins} NamedBuiltins */

const noted = new WeakSet();
const add = uncurried(WeakSet.prototype.add);
const has = uncurried(WeakSet.prototype.has);
const { isProxy } = /** @type {any} */ (nodeUtil).types;
const { prototype: functions } = Function;

/** @type {NamedBuiltins | undefined} what was there before the agents' code */
let known;

/** Whether it isn't known any more which objects may have got another prototype. */
let isAny = false;

/** @param {NamedBuiltins} builtins */
export function knowFirstPrototypes(builtins) {
  known = builtins;
}

/** @param {object} object @returns {boolean} whether it may keep more than its prototype says */
export const hadOtherPrototype = (object) => isAny || has(noted, object);

/** What the texts of functions end with that nobody's JavaScript has made. */
const NATIVE = "{ [native code] }";
const textOf = uncurried(functions.toString);
const endsWith = uncurried(String.prototype.endsWith);

/** @param {object} owner @returns {boolean} whether it has a native function that isn't known: node's own code does */
function isOfNative(owner) {
  return ownKeys(owner).some((key) => {
    const value = getOwnPropertyDescriptor(owner, key)?.value;
    return typeof value === "function" && known?.nameOf(value) === undefined && endsWith(textOf(value), NATIVE);
  });
}

/** @param {object} object @returns {boolean} whether by its prototypes it may keep something out of sight */
function mayKeepMore(object) {
  for (let owner = getPrototypeOf(object); owner !== null; owner = getPrototypeOf(owner)) {
    if (isProxy(owner) || has(noted, owner)) return true;
    if (known?.plain.has(owner)) return false;
    if (known?.nameOf(owner) !== undefined || isOfNative(owner)) return true;
  }
  return false;
}

/** @param {unknown} next what a class is to derive from @returns {boolean} whether it may make other objects then */
function makesMore(next) {
  // A class of the agents' makes what the class makes from which it derives.
  for (let at = next; typeof at === "function" && at !== functions; at = getPrototypeOf(at)) {
    const isNamed = known?.nameOf(at) !== undefined;
    if (isNamed) return known?.plain.has(getOwnPropertyDescriptor(at, "prototype")?.value) === false;
    if (isProxy(at)) return true;
  }
  return false;
}

/**
 * A class was made. If it derives from a bound function, its prototype doesn't say what it makes.
 * @param {Function} cls
 */
export function noteClass(cls) {
  const parent = /** @type {any} */ (getPrototypeOf(cls));
  let target = parent;
  for (let bound = boundOf(target); bound !== undefined; bound = boundOf(target)) ({ target } = bound);
  if (target !== parent && makesMore(target)) isAny = true;
}

/**
 * An object is about to get another prototype.
 * @param {unknown} object
 * @param {unknown} next
 */
function note(object, next) {
  if (!isObject(object)) return;
  // What is behind a proxy gets it.
  if (isProxy(object) || (typeof object === "function" && makesMore(next))) isAny = true;
  else if (mayKeepMore(object)) add(noted, object);
}

/** @param {Function} engine what gives an object another prototype */
const givingPrototype = (engine) => methodOf((self, given) => {
  note(given[0], given[1]);
  return apply(engine, self, given);
}, engine);

/** @param {any} cls @returns {unknown} its prototype, if it is its own value */
const prototypeOf = (cls) =>
  (isObject(cls) && !isProxy(cls) ? getOwnPropertyDescriptor(cls, "prototype")?.value : undefined);

/**
 * What gives the prototype of one class that of another.
 * @param {Function} engine
 */
const inheriting = (engine) => methodOf((self, given) => {
  const made = prototypeOf(given[0]);
  const next = prototypeOf(given[1]);
  // One that a function reads may be any.
  if (isObject(made) && isObject(next)) note(made, next);
  else isAny = true;
  return apply(engine, self, given);
}, engine);

/** @param {Function} engine what makes an object, maybe with the prototype of another function than is called */
const constructing = (engine) => methodOf((self, given) => {
  const made = apply(engine, self, given);
  if (given.length > 2 && given[0] !== given[2]) add(noted, made);
  return made;
}, engine);

/** Sees what gets another prototype. It is called once, before any of the agents' code is loaded. */
export function watchPrototypes() {
  for (const owner of [Object, Reflect]) replace(owner, "setPrototypeOf", givingPrototype);
  replace(Reflect, "construct", constructing);
  replace(nodeUtil, "inherits", inheriting);
  const found = /** @type {PropertyDescriptor} */ (getOwnPropertyDescriptor(Object.prototype, "__proto__"));
  const { set } = /** @type {{ set: Function }} */ (/** @type {unknown} */ (found));
  const holder = { set: methodOf((self, given) => {
    note(self, given[0]);
    return apply(set, self, given);
  }, set) };
  defineProperty(Object.prototype, "__proto__", { ...found, set: /** @type {any} */ (holder.set) });
}
