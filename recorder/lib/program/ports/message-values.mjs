// Values in messages. What is sent has the engine's own arrays in place of those that are watched, and other threads
// can reach its shared buffers from then on. What is received gets watched arrays. Getters are called first, once, as
// structured clone calls them. So memory that one of them returns is found.

import { types } from "node:util";
import threads from "node:worker_threads";
import { memoryNumber } from "../../agent/ordinary/context.mjs";
import { wrappedView } from "../../agent/ordinary/data-view.mjs";
import { wrapped } from "../../agent/ordinary/watched-elements.mjs";
import { replace } from "../../agent/ordinary/patch.mjs";
import { WHOLLY, mirrored, reaches } from "../../agent/ordinary/reach.mjs";
import { anyWatchedOf } from "../../agent/ordinary/watched.mjs";
import {
  bufferBehind, create, defineProperty, getOwnPropertyDescriptor, getPrototypeOf, isArray, isObject,
  mapSet, ownKeys, tagOf, weakHas, weakSet,
} from "../../primordials.mjs";
import { Buffers, bufferIn } from "../moves/buffers.mjs";

const { Array: EngineArray, Map: EngineMap, WeakMap: EngineWeakMap } = globalThis;
/** @type {(value: unknown, options: unknown) => any} */
const engineClone = /** @type {any} */ (globalThis).structuredClone;
const { isView } = ArrayBuffer;
const EngineMemory = WebAssembly.Memory;

/** @param {unknown} inner */
const isWasmMemory = (inner) => inner instanceof EngineMemory;

/** @param {any} inner @returns {any} the buffer that is a value, or that it has: a view or a WebAssembly.Memory */
function bufferOfAny(inner) {
  if (isView(inner)) return bufferBehind(inner);
  return isWasmMemory(inner) ? bufferIn(inner) : inner;
}

/** @param {unknown} inner @returns {boolean} whether a value is shared memory, or the engine's own object on it */
const isSharedMemory = (inner) => Buffers.isShared(bufferOfAny(inner));

/** @param {unknown} inner @returns {boolean} */
const isMemory = (inner) => anyWatchedOf(inner) !== undefined || isSharedMemory(inner);

/** Objects of which structured clone takes more than their properties. @type {((value: any) => boolean)[]} */
const OTHERS = [
  types.isProxy, types.isMap, types.isSet, types.isNativeError, types.isDate, types.isRegExp, types.isBoxedPrimitive,
  types.isAnyArrayBuffer, isView,
];

/** @type {WeakMap<object, boolean>} objects that the program has marked: no clone of them can be made */
const uncloneable = new EngineWeakMap();
let isAnyMarked = false;

/** Notes which objects are marked: a copy of one wouldn't have the mark. Node 20 has no such marks. */
export function installMarks() {
  replace(threads, "markAsUncloneable", (engine) => (/** @type {any} */ given) => {
    engine(given);
    if (!isObject(given)) return;
    isAnyMarked = true;
    weakSet(uncloneable, given, true);
  });
}

/** @param {any} inner @returns {boolean} */
const isMarked = (inner) => isObject(inner) && weakHas(uncloneable, inner);

/** @param {any} object @param {string | symbol} key @returns {boolean} whether structured clone takes a property */
const isTaken = (object, key) => typeof key === "string" && getOwnPropertyDescriptor(object, key)?.enumerable === true;

/** @param {any} inner @returns {boolean} whether a value is an object of which structured clone calls a getter */
function hasGetter(inner) {
  if (typeof inner !== "object" || inner === null || OTHERS.some((isIt) => isIt(inner))) return false;
  return ownKeys(inner).some((key) => {
    const found = getOwnPropertyDescriptor(inner, key);
    return found?.get !== undefined && found.enumerable && typeof key === "string";
  });
}

/**
 * A value in which each getter has been called: what it has returned is in its place.
 * @param {unknown} value
 * @param {Map<object, object>} made the copies of objects, so that each has one
 * @returns {unknown}
 */
const settled = (value, made) => mirrored(value, made, {
  isIt: hasGetter,
  copyOf: (object) => {
    const copy = isArray(object) ? new EngineArray(object.length) : create(getPrototypeOf(object));
    // An object may have itself in it.
    mapSet(made, object, copy);
    ownKeys(object).forEach((key) => {
      // A getter may have taken away another property.
      if (!isTaken(object, key)) return;
      const inner = settled(object[key], made);
      defineProperty(copy, key, { value: inner, writable: true, enumerable: true, configurable: true });
    });
    return copy;
  },
});

/**
 * A value with the engine's own arrays.
 * @param {unknown} given
 * @param {(memory: any) => void} met gets each shared buffer in it, and each shared WebAssembly.Memory
 * @param {import("../../agent/ordinary/reach.mjs").Walked} [walked]
 * @returns {unknown}
 */
function bare(given, met, walked) {
  // The engine throws for such an object, and wouldn't for a copy.
  if (isAnyMarked && reaches(given, WHOLLY, false, isMarked)) return given;
  if (!reaches(given, WHOLLY, false, (inner) => isMemory(inner) || hasGetter(inner), walked)) return given;
  const value = settled(given, new EngineMap());
  return mirrored(value, new EngineMap(), {
    isIt: isMemory,
    copyOf: (inner) => {
      const real = anyWatchedOf(inner)?.real ?? inner;
      met(isView(real) ? bufferBehind(real) : real);
      return real;
    },
  });
}

/**
 * A value as it is sent.
 * @param {unknown} value
 * @param {Buffers} buffers
 * @param {import("../../agent/ordinary/reach.mjs").Walked} [walked]
 * @returns {unknown}
 */
export const sent = (value, buffers, walked) => bare(value, (memory) => {
  if (Buffers.isShared(memory)) buffers.share(memory);
  else buffers.shareMemory(memory);
}, walked);

/**
 * A value as it is received.
 * @param {unknown} value
 * @param {Buffers} buffers
 * @returns {any}
 */
export function received(value, buffers) {
  return mirrored(value, new EngineMap(), {
    isIt: isSharedMemory,
    copyOf: (inner) => {
      const buffer = bufferOfAny(inner);
      buffers.received(buffer);
      if (isWasmMemory(inner)) buffers.bufferOf(inner);
      if (buffer === inner || isWasmMemory(inner)) return inner;
      const number = memoryNumber(buffer);
      if (number < 0) return inner;
      return tagOf(inner) === undefined ? wrappedView(inner, number) : wrapped(inner, number);
    },
  });
}

/**
 * What structuredClone makes of a value: the clone has the same shared memory, as in node.
 * @param {unknown} value
 * @param {unknown} options
 * @param {import("./ports.mjs").Ports} ports of the thread
 * @param {any[]} moved those of them that are transferred
 * @returns {unknown}
 */
export function clonedValue(value, options, ports, moved) {
  /** @type {any[]} */
  const met = [];
  const given = bare(value, (memory) => met.push(memory));
  if (met.length + moved.length === 0) return engineClone(value, options);
  const { buffers } = ports.context;
  const { clone, clones, others } = engineClone({ clone: given, clones: met, others: moved }, options);
  clones.forEach((/** @type {any} */ each, /** @type {number} */ at) =>
    buffers.cloned(bufferOfAny(each), bufferOfAny(met[at])));
  others.forEach((/** @type {any} */ each, /** @type {number} */ at) => ports.clone(moved[at], each));
  return received(clone, buffers);
}
