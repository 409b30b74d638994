// The texts of a browser's functions: all are native there, and many of node's aren't.

import { getOwnPropertyDescriptor, ownKeys } from "../../primordials.mjs";

/** @param {any} owner @param {Set<unknown>} found gets the functions of its members */
function addMembers(owner, found) {
  for (const key of ownKeys(owner)) {
    const { value, get, set } = /** @type {PropertyDescriptor} */ (getOwnPropertyDescriptor(owner, key));
    for (const each of [value, get, set]) if (typeof each === "function") found.add(each);
  }
}

/** @param {any} fn of the global object @param {Set<unknown>} found gets it, and the functions of its members */
function addAll(fn, found) {
  found.add(fn);
  addMembers(fn, found);
  const { prototype } = fn;
  if (typeof prototype === "object" && prototype !== null) addMembers(prototype, found);
}

/** The functions of a thread's global object. */
export class NativeFunctions {
  /** @type {Set<unknown>} */
  #found = new Set();

  /** @type {Set<string | symbol>} what node makes when it is read first */
  #unmade = new Set();

  constructor() {
    for (const key of ownKeys(globalThis)) {
      const { value, get } = /** @type {PropertyDescriptor} */ (getOwnPropertyDescriptor(globalThis, key));
      if (get === undefined) this.add(value);
      else this.#unmade.add(key);
    }
  }

  /** @param {unknown} value that is put into the global object */
  add(value) {
    if (typeof value === "function") addAll(value, this.#found);
  }

  /** @param {unknown} fn @returns {boolean} whether it is one of them */
  has(fn) {
    for (const key of this.#unmade) {
      const made = getOwnPropertyDescriptor(globalThis, key)?.value;
      if (made === undefined) continue;
      this.#unmade.delete(key);
      this.add(made);
    }
    return this.#found.has(fn);
  }
}
