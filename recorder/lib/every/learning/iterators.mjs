// What goes through an array, for the agents and for the code that learns them.

import { getPrototypeOf, put } from "../../primordials.mjs";

/** @type {any} */
let ofArrays;

/** @type {Function} */
let next;

/** Takes what goes through an array now as what has to go through it. */
export function knowNext() {
  ofArrays = getPrototypeOf([][Symbol.iterator]());
  ({ next } = ofArrays);
}

knowNext();

/** @returns {boolean} whether agents have replaced the `next` of all iterators of arrays; it is put back */
export function hadOtherNext() {
  if (ofArrays.next === next) return false;
  put(ofArrays, "next", next);
  return true;
}
