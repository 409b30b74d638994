// Functions of the language as they were before any of the agents' code was loaded. Agents may replace the functions of
// Array.prototype, Reflect or Map.prototype. Code that runs beside them calls these.

const { prototype: functions } = Function;
const { bind, call } = functions;

/**
 * A method as a function that takes the receiver first: `uncurried(Map.prototype.get)(map, key)`.
 * @param {Function} method
 * @returns {(receiver: any, ...given: any[]) => any}
 */
export const uncurried = bind.bind(call);

export const {
  apply, construct, deleteProperty, get, getOwnPropertyDescriptor, getPrototypeOf, has, isExtensible, ownKeys,
  preventExtensions, set, setPrototypeOf,
} = Reflect;
export const { create, freeze, is } = Object;
export const { isArray } = Array;
export const { stringify } = JSON;
export const hasOwn = uncurried(Object.prototype.hasOwnProperty);
export const toUpperCase = uncurried(String.prototype.toUpperCase);

const { defineProperty: define } = Reflect;

/**
 * Defines a property by what the descriptor has itself: agents may have put a `get` in Object.prototype.
 * @param {object} owner
 * @param {string | symbol} name
 * @param {PropertyDescriptor} descriptor
 * @returns {boolean} whether it could be done
 */
export function defineProperty(owner, name, descriptor) {
  return define(owner, name, /** @type {PropertyDescriptor} */ ({ __proto__: null, ...descriptor }));
}

/** @param {unknown} value @returns {value is any} whether it can have properties */
export const isObject = (value) => (typeof value === "object" && value !== null) || typeof value === "function";

/**
 * What the getter of a property returns, as a function of the receiver.
 * @param {object} owner
 * @param {string | symbol} name
 * @returns {(receiver: unknown) => any}
 */
export const slotOf = (owner, name) => {
  // Each that is asked for here is a getter.
  const { get: getter } = /** @type {{ get: Function }} */ (getOwnPropertyDescriptor(owner, name));
  return uncurried(getter);
};

/** @typedef {{ new (...given: any[]): any, readonly prototype: any }} Constructor of any typed array */

/** What all typed arrays inherit from, and the prototype of theirs. */
export const TypedArray = /** @type {Constructor} */ (getPrototypeOf(Int8Array));
const { prototype: typedArrays } = TypedArray;

// Of a typed array, by the engine's own slots: they throw for anything else, except `tagOf`, which is undefined then.
export const bufferOf = slotOf(typedArrays, "buffer");
export const offsetOf = slotOf(typedArrays, "byteOffset");
export const lengthOf = slotOf(typedArrays, "length");
export const byteLengthOf = slotOf(typedArrays, "byteLength");
export const tagOf = slotOf(typedArrays, Symbol.toStringTag);

// The same of a DataView and of a shared buffer.
export const viewBufferOf = slotOf(DataView.prototype, "buffer");
export const viewOffsetOf = slotOf(DataView.prototype, "byteOffset");
export const viewLengthOf = slotOf(DataView.prototype, "byteLength");
export const sharedLengthOf = slotOf(SharedArrayBuffer.prototype, "byteLength");

/** @param {any} view of the engine's own */
export const bufferBehind = (view) => (tagOf(view) === undefined ? viewBufferOf(view) : bufferOf(view));

/** Whether a shared buffer can grow, and how long it can get. @type {(buffer: object) => any} */
export const isGrowable = slotOf(SharedArrayBuffer.prototype, "growable");
export const mostLengthOf = slotOf(SharedArrayBuffer.prototype, "maxByteLength");

export const mapGet = uncurried(Map.prototype.get);
export const mapSet = uncurried(Map.prototype.set);
export const mapHas = uncurried(Map.prototype.has);
export const weakGet = uncurried(WeakMap.prototype.get);
export const weakSet = uncurried(WeakMap.prototype.set);
export const weakHas = uncurried(WeakMap.prototype.has);

export const mapForEach = uncurried(Map.prototype.forEach);

/** @param {readonly unknown[]} list @returns {any[]} its items in another list; no iterator is asked for them */
export function copied(list) {
  const copy = [];
  for (let at = 0; at < list.length; at += 1) copy[at] = list[at];
  return copy;
}

/** @param {readonly unknown[]} list @param {unknown} item that it has @returns {number} its position */
export function positionIn(list, item) {
  let at = 0;
  while (list[at] !== item) at += 1;
  return at;
}

/** @type {WeakMap<object, object>} functions of the engine and of node, by what stands for them */
const stoodFor = new WeakMap();

/** @param {any} value @returns {any} the function for which it stands, if it does; else the value */
export const engineOf = (value) => weakGet(stoodFor, value) ?? value;

/** @param {object} stand @param {object} engine the function for which it stands, or what stands for that one */
export function standFor(stand, engine) {
  const found = engineOf(engine);
  // What is put back stands for nothing.
  if (found !== stand) weakSet(stoodFor, stand, found);
}

const { Proxy: EngineProxy } = globalThis;
const standIns = new WeakSet();
const noteStandIn = uncurried(WeakSet.prototype.add);
const isNoted = uncurried(WeakSet.prototype.has);

/** @param {unknown} value @returns {boolean} whether `proxyOf` has made it: what it stands for is no proxy */
export const isMadeStandIn = (value) => isNoted(standIns, value);

/**
 * @template {object} Target
 * @param {Target} target
 * @param {ProxyHandler<Target>} traps
 * @returns {Target} what stands for it; what agents put in Object.prototype is no trap of it
 */
export function proxyOf(target, traps) {
  setPrototypeOf(traps, null);
  const standIn = new EngineProxy(target, traps);
  noteStandIn(standIns, standIn);
  if (typeof target === "function") standFor(standIn, target);
  return standIn;
}

/**
 * Puts a property that stands for the engine's own in an object, as such are: not to be listed.
 * @param {object} owner
 * @param {string | symbol} name
 * @param {unknown} value
 */
export function put(owner, name, value) {
  defineProperty(owner, name, { value, writable: true, enumerable: false, configurable: true });
}

/**
 * Gives an object a property as another one has it, if it has it.
 * @param {object} to
 * @param {object} from
 * @param {string | symbol} name
 */
export function copyProperty(to, from, name) {
  const found = getOwnPropertyDescriptor(from, name);
  if (found !== undefined) defineProperty(to, name, found);
}

/**
 * Gives a function the name and the length of the function for which it stands.
 * @template {Function} Stand
 * @param {Stand} stand
 * @param {Function} engine
 * @returns {Stand}
 */
export function likeEngine(stand, engine) {
  const names = ["name", "length"];
  for (let at = 0; at < names.length; at += 1) copyProperty(stand, engine, names[at]);
  standFor(stand, engine);
  return stand;
}
