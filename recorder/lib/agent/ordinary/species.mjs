// Which array a method returns: the language asks the receiver's constructor for it.

import { construct, get, isObject, lengthOf, tagOf, uncurried } from "../../primordials.mjs";
import { ENGINE, unwrapped, watchedOf } from "./watched.mjs";

const { TypeError: EngineTypeError, Symbol: EngineSymbol } = globalThis;
const { species } = EngineSymbol;
const begins = uncurried(String.prototype.startsWith);

/** The constructors that agents get in this realm, by their kind. */
export const standIns = /** @type {Function[]} */ ([]);

/**
 * The constructor of what a method returns, if it isn't the engine's own of the receiver's kind.
 * @param {object} self the receiver
 * @param {number} kind
 * @returns {Function | undefined}
 */
function speciesOf(self, kind) {
  const constructor = get(self, "constructor");
  if (constructor === undefined || constructor === standIns[kind]) return undefined;
  if (!isObject(constructor)) throw new EngineTypeError("object.constructor is not an object");
  const found = constructor[species];
  return found === undefined || found === null || found === standIns[kind] ? undefined : found;
}

/** @param {string} tag of a typed array */
const isBig = (tag) => begins(tag, "Big");

/**
 * A new typed array of a constructor of the agents'.
 * @param {Function} constructor
 * @param {unknown[]} given
 * @returns {any}
 */
export function arrayBy(constructor, given) {
  const made = construct(constructor, given);
  const real = unwrapped(made);
  if (tagOf(real) === undefined) throw new EngineTypeError("this is not a typed array.");
  if (given.length === 1 && typeof given[0] === "number" && lengthOf(real) < given[0]) {
    throw new EngineTypeError("Derived TypedArray constructor created an array which was too small");
  }
  return made;
}

/**
 * The array that a method returns: a private one of the receiver's kind, or what its species makes.
 * @param {import("./watched.mjs").Watched} watched the receiver
 * @param {object} self the receiver, as agents hold it
 * @param {number} length
 */
export function answered(watched, self, length) {
  const constructor = speciesOf(self, watched.kind);
  if (constructor === undefined) return new ENGINE[watched.kind](length);
  return sameContents(watched, arrayBy(constructor, [length]));
}

/**
 * A part of a watched array, on the same buffer.
 * @param {import("./watched.mjs").Watched} watched
 * @param {object} self
 * @param {unknown[]} given what the constructor takes
 */
export function partOf(watched, self, given) {
  const constructor = speciesOf(self, watched.kind) ?? standIns[watched.kind];
  return sameContents(watched, arrayBy(constructor, given));
}

/** @template {object} Made @param {import("./watched.mjs").Watched} watched @param {Made} made */
function sameContents(watched, made) {
  if (isBig(tagOf(unwrapped(made))) === watched.big) return made;
  throw new EngineTypeError("Content type of the species' array differs from the receiver's");
}

/** @param {object} array @returns {boolean} whether its elements are BigInts */
export function hasBigs(array) {
  const watched = watchedOf(array);
  return watched === undefined ? isBig(tagOf(array)) : watched.big;
}
