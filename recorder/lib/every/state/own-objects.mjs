// The objects of the language and of node itself. Agents may not change them: what they would keep there isn't shown.

import { types } from "node:util";
import { getOwnPropertyDescriptor, isArray, isExtensible, isObject } from "../../primordials.mjs";
import { boundOf } from "./bound-functions.mjs";

/**
 * @typedef {object} OwnObjects
 * @property {(object: object) => string | undefined} nameOf says what an object is called, if it is one of them
 * @property {(object: object) => boolean} isNamespace whether it has the exports of a module
 * @property {(fn: Function) => boolean} isOfModules whether a function is of the agents' modules
 * @property {(object: object, name: string) => void} add takes one that wasn't there before
 * @property {(why: string) => never} refuse ends what agents do
 */

/** @type {OwnObjects | undefined} none while they are still being put together */
let guarded;

/** @param {OwnObjects | undefined} objects that may not be changed from now on; undefined: all may be changed */
export function guardOwn(objects) {
  guarded = objects;
}

/** @param {object} object of node, which was made only now @param {string} name */
export function addOwn(object, name) {
  guarded?.add(object, name);
}

/** @param {string} name by which an object is reached @returns {string} what it is, as people know it */
const shortName = (name) => `\`${name.replace(/^globalThis\.(?=.)/, "")}\`, an object of the language or of node`;

/**
 * @template Value
 * @param {Value} value that may be about to be changed
 * @param {string} [does] what agents would do with it
 * @returns {Value} the same, if it isn't one of them
 */
export function own(value, does = "changes") {
  if (guarded === undefined || !isObject(value)) return value;
  const object = /** @type {object} */ (value);
  if (guarded.isNamespace(object)) guarded.refuse(`it ${does} what a module exports`);
  const name = guarded.nameOf(object);
  if (name !== undefined) guarded.refuse(`it ${does} ${shortName(name)}`);
  if (isUnnamed(object)) guarded.refuse(`it ${does} a function or a prototype that isn't of the modules`);
  return value;
}

const { isProxy } = types;

/** @param {unknown} fn @returns {boolean} whether it is a function that neither the modules nor a `bind` has made */
const isUnnamedFunction = (fn) => typeof fn === "function" && !isProxy(fn) && boundOf(fn) === undefined
  && guarded !== undefined && guarded.nameOf(fn) === undefined && !guarded.isOfModules(fn);

/**
 * What the engine or node has, although no name leads to it: the function of an object of node's, its prototype.
 * @param {object} object
 */
export function isUnnamed(object) {
  if (isProxy(object)) return false;
  if (typeof object === "function") return isUnnamedFunction(object);
  const { value, get } = getOwnPropertyDescriptor(object, "constructor") ?? {};
  const fn = value ?? get;
  if (typeof fn !== "function" || isUnnamedFunction(fn)) return typeof fn === "function";
  return guarded?.nameOf(fn) !== undefined && getOwnPropertyDescriptor(fn, "prototype")?.value === object;
}

/** @param {unknown} value an object that is about to get private members: the strings of a template get none */
export function stamped(value) {
  own(value);
  if (guarded !== undefined && isArray(value) && !isExtensible(value)) {
    guarded.refuse("it puts private members on a list that can't change");
  }
}
