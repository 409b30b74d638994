// What a module exports, as the engine's namespace objects have it: the names in order, and nobody can change them.

import { Refused } from "../../options/refused.mjs";
import { defineProperty, getOwnPropertyDescriptor, hasOwn } from "../../primordials.mjs";

/** @typedef {Record<string, () => unknown>} Getters what a module exports itself, by names */

const { preventExtensions } = Object;

/** @param {string} name @param {any} other what a module exports @returns {() => unknown} reads one of it */
const getterOf = (name, other) => getOwnPropertyDescriptor(other, name)?.get ?? (() => other[name]);

/** @param {any[]} stars of what a module exports all @param {Getters} own @returns {Map<string, () => unknown>} */
function passedOn(stars, own) {
  /** @type {Map<string, () => unknown>} */
  const passed = new Map();
  for (const other of stars) {
    for (const name of Object.keys(other)) {
      if (name === "default" || hasOwn(own, name)) continue;
      const get = getterOf(name, other);
      const known = passed.get(name);
      if (known !== undefined && known !== get) throw new Refused(`\`${name}\` is exported by two \`export *\``);
      passed.set(name, get);
    }
  }
  return passed;
}

/**
 * @param {object} namespace that is empty still
 * @param {Getters} getters
 * @param {any[]} stars what other modules export, of which all is exported
 */
export function fillNamespace(namespace, getters, stars) {
  const all = new Map([...passedOn(stars, getters), ...Object.entries(getters)]);
  for (const name of [...all.keys()].sort()) {
    const set = () => {
      throw new TypeError(`Cannot assign to read only property '${name}' of object '[object Module]'`);
    };
    defineProperty(namespace, name, { get: all.get(name), set, enumerable: true, configurable: false });
  }
  defineProperty(namespace, Symbol.toStringTag, { value: "Module" });
  preventExtensions(namespace);
}
