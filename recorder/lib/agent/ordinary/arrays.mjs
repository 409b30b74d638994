// The typed arrays of a watched realm: their constructors, methods and getters. Private arrays are the engine's own;
// their elements cost nothing more.

import {
  TypedArray, apply, bufferOf, byteLengthOf, construct, copyProperty, get, getPrototypeOf, hasOwn, isObject, lengthOf,
  likeEngine, offsetOf, ownKeys, put, setPrototypeOf, tagOf, uncurried,
} from "../../primordials.mjs";
import { ANSWERING } from "./answering.mjs";
import { blockNumber, memoryNumber, refused } from "./context.mjs";
import { lastAsked, wrapped } from "./watched-elements.mjs";
import { constructing, madePrivate } from "./guards.mjs";
import { needsFunction } from "./argument-conversions.mjs";
import { forWatched, methodOf, replace, replaceGetter } from "./patch.mjs";
import { READING } from "./reading.mjs";
import { arrayBy, standIns } from "./species.mjs";
import { ENGINE, askedLength, kindNumbered, reportAll, watchedOf } from "./watched.mjs";
import { WRITING, setFrom } from "./writing.mjs";

const { TypeError: EngineTypeError } = globalThis;
const { prototype: typedArrays } = TypedArray;
const EngineArray = Array;
const { from: arrayFrom } = EngineArray;
const call = uncurried(Function.prototype.call);
const { iterator, toStringTag } = Symbol;

/** @type {boolean[]} whether the elements of each kind are BigInts */
const BIG = [];
for (let kind = 0; kind < ENGINE.length; kind += 1) BIG[kind] = typeof new ENGINE[kind](1)[0] === "bigint";

/**
 * What a constructor makes of an object.
 * @param {number} kind
 * @param {any} first
 * @param {any} second
 * @param {any} third
 * @param {Function} target whose prototype the array has
 */
function madeOf(kind, first, second, third, target) {
  const source = watchedOf(first);
  if (source === undefined) {
    const Engine = ENGINE[kind];
    const isOwn = target === Engine;
    const made = isOwn ? new Engine(first, second, third) : construct(Engine, [first, second, third], target);
    return wrapped(made, memoryNumber(first));
  }
  if (source.big === BIG[kind]) reportAll(source, false);
  return construct(ENGINE[kind], [source.real], target);
}

/** @param {number} kind @returns {Function} the constructor that agents get in place of an engine's one */
function standInOf(kind) {
  const Engine = ENGINE[kind];
  const { name } = Engine;
  /** @param {any} first @param {any} second @param {any} third */
  const StandIn = function (first, second, third) {
    if (new.target === undefined) throw new EngineTypeError(`Constructor ${name} requires 'new'`);
    if (isObject(first)) {
      return madeOf(kind, first, second, third, new.target === StandIn ? Engine : new.target);
    }
    return new.target === StandIn ? new Engine(first) : construct(Engine, [first], new.target);
  };
  likeEngine(StandIn, Engine);
  setPrototypeOf(StandIn, TypedArray);
  for (const key of ownKeys(Engine)) {
    if (key !== "name" && key !== "length") copyProperty(StandIn, Engine, key);
  }
  return StandIn;
}

/** @param {unknown} value */
function isStandIn(value) {
  for (let kind = 0; kind < standIns.length; kind += 1) {
    if (standIns[kind] === value) return true;
  }
  return false;
}

/**
 * `from` and `of` for a class of the agents', which may make watched arrays.
 * @param {Function} constructor
 * @param {any[]} values
 * @param {unknown} mapper
 * @param {unknown} thisArgument
 */
function filledBy(constructor, values, mapper, thisArgument) {
  const made = arrayBy(constructor, [values.length]);
  for (let index = 0; index < values.length; index += 1) {
    made[index] = mapper === undefined ? values[index] : call(mapper, thisArgument, values[index], index);
  }
  return made;
}

/**
 * A private array without its iterator. So the engine takes its elements one by one, which is faster than by an
 * iterator that isn't the engine's own.
 * @param {any} source
 */
function withoutIterator(source) {
  const tag = tagOf(source);
  if (tag === undefined || get(source, iterator) !== typedArrays[iterator]) return source;
  const copy = new ENGINE[kindNumbered(tag)](source);
  put(copy, iterator, undefined);
  return copy;
}

function replaceStatics() {
  replace(TypedArray, "from", (engine) => methodOf((self, given) => {
    const mapper = given[1];
    if (isStandIn(self)) return call(engine, self, withoutIterator(given[0]), mapper, given[2]);
    if (typeof self !== "function") return apply(engine, self, given);
    if (mapper !== undefined) needsFunction(mapper);
    return filledBy(self, call(arrayFrom, EngineArray, given[0]), mapper, given[2]);
  }, engine));
  replace(TypedArray, "of", (engine) => methodOf((self, values) => {
    if (isStandIn(self) || typeof self !== "function") return apply(engine, self, values);
    return filledBy(self, values, undefined, undefined);
  }, engine));
}

/**
 * The getter of what an array has. The getter of a private array must be fast, and throws for a watched one. The
 * watched array that was asked through its proxy just now is at hand.
 * @param {(real: object) => unknown} slot
 * @param {(watched: import("./watched.mjs").Watched) => unknown} known
 */
const getterOf = (slot, known) => () => ({
  get asked() {
    const last = lastAsked(this);
    if (last !== undefined) return known(last);
    try {
      return slot(this);
    } catch (error) {
      const watched = watchedOf(this);
      if (watched === undefined) throw error;
      return known(watched);
    }
  },
});

/** The length is asked for most often, so it has a getter that does nothing else. */
const lengthGetter = () => ({
  get asked() {
    const last = lastAsked(this);
    if (last !== undefined) return last.follows ? askedLength(last) : last.length;
    try {
      return lengthOf(this);
    } catch (error) {
      const watched = watchedOf(this);
      if (watched === undefined) throw error;
      return askedLength(watched);
    }
  },
});

function replaceGetters() {
  replaceGetter(typedArrays, "buffer", getterOf(bufferOf, (watched) => watched.buffer));
  replaceGetter(typedArrays, "byteOffset", getterOf(offsetOf, (watched) => watched.offset));
  replaceGetter(typedArrays, "byteLength", getterOf(byteLengthOf, (watched) => askedLength(watched) * watched.size));
  replaceGetter(typedArrays, "length", lengthGetter);
  replaceGetter(typedArrays, toStringTag, () => ({
    get asked() {
      const tag = tagOf(this);
      return tag === undefined ? tagOf(watchedOf(this)?.real) : tag;
    },
  }));
}

/** @param {Record<string, import("./patch.mjs").WatchedMethod>} methods */
function replaceAll(methods) {
  for (const [name, method] of Object.entries(methods)) {
    replace(typedArrays, name, (engine) => forWatched(engine, method));
  }
}

/**
 * What else this engine has isn't known here. `toString` asks the array's own `join`.
 * @param {object} owner
 */
function refuseOthers(owner) {
  for (const name of ownKeys(owner)) {
    const isKnown = name === "constructor" || name === "toString" || name === "set" || name === iterator
      || hasOwn(READING, name) || hasOwn(ANSWERING, name) || hasOwn(WRITING, name);
    if (isKnown) continue;
    replace(owner, name, (engine) => forWatched(engine, () => refused(`${engine.name} of a typed array was called`)));
  }
}

function replaceMethods() {
  replaceAll(READING);
  replaceAll(ANSWERING);
  replaceAll(WRITING);
  replace(typedArrays, "set", (engine) => ({
    /** @param {unknown} source @param {unknown} offset */
    method(source, offset) {
      if (watchedOf(this) === undefined && watchedOf(source) === undefined) return apply(engine, this, arguments);
      return setFrom(this, source, offset);
    },
  }).method);
  put(typedArrays, iterator, typedArrays.values);
  refuseOthers(typedArrays);
}

/** Typed arrays of kinds that aren't known here, as a later engine may have them. */
function refuseOtherKinds() {
  const realm = /** @type {Record<string, unknown>} */ (globalThis);
  for (const name of ownKeys(realm)) {
    if (typeof name !== "string" || !/^[A-Z]\w*Array$/.test(name)) continue;
    const Engine = realm[name];
    if (typeof Engine !== "function" || getPrototypeOf(Engine) !== TypedArray || isStandIn(Engine)) continue;
    /** @param {unknown[]} given */
    const check = (given) => {
      if (blockNumber(given[0]) >= 0) refused(`a ${name} was made on a recorded buffer`);
      return given;
    };
    put(globalThis, name, constructing(Engine, (given) => madePrivate(check(given))));
  }
}

/** The engine's own way to seal a typed array isn't what it asks of a proxy. */
function replaceSeal() {
  replace(Object, "seal", (engine) => methodOf((_self, given) => {
    const value = given[0];
    engine(watchedOf(value)?.real ?? value);
    return value;
  }, engine));
}

/** Patches the typed arrays of this realm. */
export function watchArrays() {
  replaceStatics();
  replaceGetters();
  replaceMethods();
  replaceSeal();
  for (let kind = 0; kind < ENGINE.length; kind += 1) {
    const StandIn = standInOf(kind);
    standIns[kind] = StandIn;
    refuseOthers(ENGINE[kind].prototype);
    put(ENGINE[kind].prototype, "constructor", StandIn);
    put(globalThis, ENGINE[kind].name, StandIn);
  }
  refuseOtherKinds();
}
