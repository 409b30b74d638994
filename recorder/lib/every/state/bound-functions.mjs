// What a bound function is bound to: the language doesn't show it, so it is noted when it is made. Some functions that
// node makes of others are noted, too.

import { methodOf, replace } from "../../agent/ordinary/patch.mjs";
import { apply, weakGet, weakSet } from "../../primordials.mjs";

/**
 * @typedef {object} Bound
 * @property {string} kind what has made it
 * @property {unknown} target
 * @property {unknown[]} given `this`, and the first arguments
 */

/** @type {WeakMap<Function, Bound>} */
const known = new WeakMap();

/** Sees what is bound. It is called once, before any of the agents' code is loaded. */
export function watchBinding() {
  replace(Function.prototype, "bind", (engine) => methodOf((self, given) => {
    const made = apply(engine, self, given);
    const kept = [given[0]];
    for (let at = 1; at < given.length; at += 1) kept[at] = given[at];
    weakSet(known, made, { kind: "bound", target: self, given: kept });
    return made;
  }, engine));
}

/**
 * @template {Function} Made
 * @param {Made} made a function that keeps nothing else
 * @param {string} kind what has made it
 * @param {unknown} [target] of what
 * @returns {Made}
 */
export function noteMade(made, kind, target) {
  weakSet(known, made, { kind, target, given: [] });
  return made;
}

/** @param {Function} fn @returns {Bound | undefined} what it is bound to, if it is a bound function */
export const boundOf = (fn) => weakGet(known, fn);
