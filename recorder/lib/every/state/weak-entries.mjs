// What WeakMaps and WeakSets of agents have: the language doesn't list it, so it is noted when it is put in.

import { methodOf, replace } from "../../agent/ordinary/patch.mjs";
import { apply, mapForEach, mapSet, uncurried, weakGet, weakSet } from "../../primordials.mjs";

const { Map: EngineMap } = globalThis;
const remove = uncurried(Map.prototype.delete);

/** @type {WeakMap<object, Map<unknown, unknown>>} what each has, as long as it is there itself */
const entries = new WeakMap();

/** @param {Function} engine what puts something in */
const adding = (engine) => methodOf((self, given) => {
  const result = apply(engine, self, given);
  let own = weakGet(entries, self);
  if (own === undefined) {
    own = new EngineMap();
    weakSet(entries, self, own);
  }
  mapSet(own, given[0], given[1]);
  return result;
}, engine);

/** @param {Function} engine what takes something out */
const taking = (engine) => methodOf((self, given) => {
  const result = apply(engine, self, given);
  const own = weakGet(entries, self);
  if (own !== undefined) remove(own, given[0]);
  return result;
}, engine);

/** Sees what is put in. It is called once, before any of the agents' code is loaded. */
export function watchWeak() {
  replace(WeakMap.prototype, "set", adding);
  replace(WeakSet.prototype, "add", adding);
  for (const { prototype } of [WeakMap, WeakSet]) replace(prototype, "delete", taking);
}

/**
 * @param {object} collection a WeakMap or a WeakSet
 * @returns {[any, unknown][]} its entries, in the order in which they were put in
 */
export function weakEntriesOf(collection) {
  /** @type {[any, unknown][]} */
  const found = [];
  const own = weakGet(entries, collection);
  if (own !== undefined) {
    mapForEach(own, (/** @type {unknown} */ value, /** @type {unknown} */ key) => {
      found[found.length] = [key, value];
    });
  }
  return found;
}
