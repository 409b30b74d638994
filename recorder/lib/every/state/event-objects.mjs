// What node's objects of events keep. An EventTarget and an AbortSignal keep all in properties, if their classes have
// no private fields. An AbortController keeps its signal.

import { types } from "node:util";
import { apply, getOwnPropertyDescriptor, getPrototypeOf, isObject, ownKeys, uncurried } from "../../primordials.mjs";

const { prototype: controllers } = AbortController;
const { get: signalGetter } = /** @type {any} */ (getOwnPropertyDescriptor(controllers, "signal"));
const textOf = uncurried(Function.prototype.toString);

/** Classes of which objects keep nothing out of sight. */
export const EVENT_CLASSES = [EventTarget, AbortSignal].filter((cls) => !/#\w/.test(textOf(cls)));

/** @returns {any} the map in which an EventTarget keeps a listener, if it has one */
function mapOfListeners() {
  const target = /** @type {any} */ (new EventTarget());
  target.addEventListener("made", () => {});
  return ownKeys(target).map((key) => target[key]).find(types.isMap);
}

const listeners = mapOfListeners();

/** What the maps of an EventTarget inherit from: node has a class of its own for them. */
export const eventMaps = listeners === undefined ? undefined : getPrototypeOf(listeners);

/** What its listeners inherit from: they keep all in properties, if their class has no private fields. */
export const eventListeners = (() => {
  const listener = listeners?.get("made")?.next;
  return isObject(listener) && !/#\w/.test(textOf(listener.constructor)) ? getPrototypeOf(listener) : undefined;
})();

/** The keys of what an AbortSignal, and so an EventTarget, keeps. */
export const eventKeys = ownKeys(new AbortController().signal);

/** @param {object} object @returns {AbortSignal | undefined} its signal, if it is an AbortController */
export function signalOf(object) {
  if (getPrototypeOf(object) !== controllers) return undefined;
  try {
    return apply(signalGetter, object, []);
  } catch {
    return undefined;
  }
}
