// How objects of Intl were made. They never change, so that is all that they keep.

import { types } from "node:util";
import {
  apply, construct, defineProperty, getOwnPropertyDescriptor, getPrototypeOf, isArray, isObject, ownKeys, proxyOf,
  stringify, weakGet, weakSet,
} from "../../primordials.mjs";

const { isProxy } = types;
const { prototype: plain } = Object;
const { prototype: arrays } = Array;

/** Those whose objects never change; a version of node may lack one. */
const NAMES = [
  "Collator", "DateTimeFormat", "DisplayNames", "DurationFormat", "ListFormat", "Locale", "NumberFormat", "PluralRules",
  "RelativeTimeFormat", "Segmenter",
];

/** How deep what is given to one of them is looked at. */
const DEPTH = 3;

/** @type {WeakMap<object, string>} how each was made */
const noted = new WeakMap();

/** @type {[string, Function][]} the engine's own constructors, with their names */
const engines = [];

/** @param {object} object @param {number} depth @returns {string | undefined} */
function membersText(object, depth) {
  const prototype = getPrototypeOf(object);
  if (depth === 0 || isProxy(object) || (prototype !== (isArray(object) ? arrays : plain) && prototype !== null)) {
    return undefined;
  }
  let text = isArray(object) ? "[" : "{";
  const keys = ownKeys(object);
  for (let at = 0; at < keys.length; at += 1) {
    const key = keys[at];
    const found = /** @type {PropertyDescriptor} */ (getOwnPropertyDescriptor(object, key));
    const member = typeof key === "symbol" || found.get || found.set ? undefined : textOf(found.value, depth - 1);
    if (member === undefined) return undefined;
    text += `${stringify(key)}:${member},`;
  }
  return `${text}.`;
}

/**
 * @param {any} value that was given to a constructor
 * @param {number} [depth]
 * @returns {string | undefined} the same only for values that do the same there; undefined: that isn't known
 */
function textOf(value, depth = DEPTH) {
  if (isObject(value)) return typeof value === "function" ? undefined : membersText(value, depth);
  if (typeof value === "symbol") return undefined;
  return `${typeof value} ${typeof value === "string" ? stringify(value) : String(value)}`;
}

/** @param {string} name of a constructor @param {unknown[]} given @returns {string | undefined} */
function making(name, given) {
  let text = name;
  for (let at = 0; at < given.length; at += 1) {
    const one = textOf(given[at]);
    if (one === undefined) return undefined;
    text += ` ${one}`;
  }
  return text;
}

/** @param {string} name @param {unknown[]} given @param {() => object} make @returns {object} */
function noting(name, given, make) {
  const text = making(name, given);
  const made = make();
  if (text !== undefined) weakSet(noted, made, text);
  return made;
}

/** Sees how such objects are made. It is called once, before any of the agents' code is loaded. */
export function watchIntl() {
  for (const name of NAMES) {
    const found = getOwnPropertyDescriptor(Intl, name);
    if (found === undefined) continue;
    const engine = found.value;
    /** @type {any} */
    const stand = proxyOf(engine, {
      construct: (_engine, given, target) =>
        noting(name, given, () => construct(engine, given, target === stand ? engine : target)),
      // What it is called on may get the object, and be returned.
      apply: (_engine, self, given) =>
        (self === undefined || self === Intl ? noting(name, given, () => apply(engine, self, given))
          : apply(engine, self, given)),
    });
    engines.push([name, engine]);
    defineProperty(Intl, name, { ...found, value: stand });
    const { prototype } = engine;
    const constructor = /** @type {PropertyDescriptor} */ (getOwnPropertyDescriptor(prototype, "constructor"));
    defineProperty(prototype, "constructor", { ...constructor, value: stand });
  }
}

/** @returns {[string, Function][]} */
export const intlConstructors = () => engines;

/** @param {object} object @returns {string | undefined} how it was made, if it is one of them and that is known */
export const intlOf = (object) => weakGet(noted, object);
