// The language's own functions that go through lists and objects. The recorder's code in a thread calls them between
// runs. What a program has put in their place is gone when its run is over, as in a thread that has just begun.

import {
  defineProperty, deleteProperty, getOwnPropertyDescriptor, getPrototypeOf, ownKeys,
} from "../../primordials.mjs";

/** @type {{ owner: any, key: string | symbol, descriptor: PropertyDescriptor }[]} */
const kept = [];

/** @param {any} list @returns {any} what the iterators of such lists inherit */
const iteratorsOf = (list) => getPrototypeOf(list[Symbol.iterator]());

const OWNERS = [
  Object, Array, Array.prototype, Map.prototype, Set.prototype,
  iteratorsOf([]), iteratorsOf(new Map()), iteratorsOf(new Set()),
];

for (const owner of OWNERS) {
  for (const key of ownKeys(owner)) {
    const descriptor = /** @type {PropertyDescriptor} */ (getOwnPropertyDescriptor(owner, key));
    if (typeof descriptor.value === "function") kept.push({ owner, key, descriptor });
  }
}

/** What all objects inherit. */
const inherited = ownKeys(Object.prototype);

/**
 * Gives the language its own functions back. What a program has added to all objects is gone, too: node's own code
 * looks there for options that aren't given, as `writable` of a stream.
 */
export function restoreBuiltins() {
  for (let at = 0; at < kept.length; at += 1) {
    const { owner, key, descriptor } = kept[at];
    if (owner[key] !== descriptor.value) defineProperty(owner, key, descriptor);
  }
  const all = ownKeys(Object.prototype);
  for (let at = 0; at < all.length; at += 1) {
    if (!inherited.includes(all[at])) deleteProperty(Object.prototype, all[at]);
  }
}
