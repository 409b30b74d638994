// The number that agents are given, as long as it isn't known whether they look at it: a getter notices that. What the
// language says about this property is what it says in a run, and to ask for it is to look at the number.

import { types } from "node:util";
import { methodOf, replace, replaceEach } from "../../agent/ordinary/patch.mjs";
import { apply, defineProperty, getOwnPropertyDescriptor, isObject, ownKeys, uncurried } from "../../primordials.mjs";

/** @type {WeakSet<Function>} */
const noticing = new WeakSet();
const add = uncurried(WeakSet.prototype.add);
const has = uncurried(WeakSet.prototype.has);
const { isFrozen } = Object;
const { isProxy } = types;

/** @type {object | undefined} what was given to an agent last, with a number that it may look at */
let lastGiven;

/**
 * @param {object} given what an agent gets
 * @param {() => number} get notices that it is looked at, and returns it
 * @param {() => void} set notices that it gets another value
 */
export function putNumber(given, get, set) {
  lastGiven = given;
  for (const one of [get, set]) add(noticing, one);
  defineProperty(given, "agent", { get, set, enumerable: true, configurable: true });
}

/**
 * @param {any} object
 * @param {PropertyDescriptor | undefined} found of it
 * @returns {PropertyDescriptor | undefined} as it is in a run
 */
function inRun(object, found) {
  if (found?.get === undefined || !has(noticing, found.get)) return found;
  const { enumerable, configurable, get } = found;
  return { value: apply(get, object, []), writable: !isFrozen(object), enumerable, configurable };
}

/** @param {Function} engine what returns a property */
const ofProperty = (engine) => methodOf((self, given) => {
  const found = apply(engine, self, given);
  return isObject(given[0]) ? inRun(given[0], found) : found;
}, engine);

/** @param {Function} engine what returns all properties */
const ofAll = (engine) => methodOf((self, given) => {
  const all = apply(engine, self, given);
  const keys = ownKeys(all);
  for (let at = 0; at < keys.length; at += 1) {
    const found = getOwnPropertyDescriptor(all, keys[at]);
    const value = inRun(given[0], found?.value);
    if (found !== undefined && value !== found.value) defineProperty(all, keys[at], { ...found, value });
  }
  return all;
}, engine);

/** @param {Function} engine what defines properties: it finds the number as it is in a run */
const defining = (engine) => methodOf((self, given) => {
  const [object] = given;
  // To ask a proxy would be to call its trap.
  const found = isObject(object) && !isProxy(object) ? getOwnPropertyDescriptor(object, "agent") : undefined;
  const shown = inRun(object, found);
  if (shown !== found) defineProperty(object, "agent", /** @type {PropertyDescriptor} */ (shown));
  return apply(engine, self, given);
}, engine);

/** @param {Function} engine what returns a getter or a setter */
const ofAccessor = (engine) => methodOf((self, given) => {
  const found = apply(engine, self, given);
  return isObject(found) && has(noticing, found) ? undefined : found;
}, engine);

/** A text is made of objects: it may have the number. */
export function showNumberInText() {
  const found = lastGiven && getOwnPropertyDescriptor(lastGiven, "agent");
  const shown = inRun(lastGiven, found);
  if (shown !== found && found?.configurable) defineProperty(/** @type {object} */ (lastGiven), "agent", { ...shown });
}

/** Lets agents find in the property what they find in a run. It is called once, before any of their code is loaded. */
export function showNumber() {
  for (const owner of [Object, Reflect]) replace(owner, "getOwnPropertyDescriptor", ofProperty);
  replaceEach(Object, ["defineProperty", "defineProperties"], defining);
  replace(Reflect, "defineProperty", defining);
  replace(Object, "getOwnPropertyDescriptors", ofAll);
  replaceEach(Object.prototype, ["__lookupGetter__", "__lookupSetter__"], ofAccessor);
}
