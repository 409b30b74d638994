// The strings of templates with tags: the engine makes an object for each such template of the text, once. As it can't
// change, a number says which one it is.

import { types } from "node:util";
import { getOwnPropertyDescriptor, isArray, isExtensible, ownKeys, weakGet, weakSet } from "../../primordials.mjs";

/** @type {WeakMap<object, number>} */
const numbers = new WeakMap();
let count = 0;
const { isProxy } = types;

/**
 * @param {object} list
 * @param {boolean} hasRaw whether it has other strings besides its own
 * @returns {boolean} whether it is a list of strings, or of nothing, that can't change
 */
function isFixed(list, hasRaw) {
  const keys = ownKeys(list);
  for (let at = 0; at < keys.length; at += 1) {
    const key = keys[at];
    const { value, writable, configurable } = /** @type {PropertyDescriptor} */ (getOwnPropertyDescriptor(list, key));
    if (writable || configurable) return false;
    if (key === "raw" && hasRaw) {
      if (!isArray(value) || isProxy(value) || isExtensible(value) || !isFixed(value, false)) return false;
    } else if (key !== "length" && (typeof key !== "string" || (typeof value !== "string" && value !== undefined))) {
      return false;
    }
  }
  return true;
}

/** @param {any} object @returns {number | undefined} its number, if it is or could be the strings of a template */
export function templateNumber(object) {
  if (!isArray(object) || isProxy(object) || isExtensible(object)) return undefined;
  const known = weakGet(numbers, object);
  if (known !== undefined) return known;
  if (getOwnPropertyDescriptor(object, "raw") === undefined || !isFixed(object, true)) return undefined;
  count += 1;
  weakSet(numbers, object, count);
  return count;
}
