// What is known about each watched array: the engine's own array behind it, and what memory it is on.

import { CONSTRUCTORS, KINDS, SIZES } from "../../../script/kinds.mjs";
import {
  bufferOf, create, defineProperty, getPrototypeOf, isGrowable, lengthOf, offsetOf, setPrototypeOf, tagOf, viewBufferOf,
  viewLengthOf, viewOffsetOf, weakGet, weakSet,
} from "../../primordials.mjs";
import { OTHER, originalOf, refused, reportOthers, watching } from "./context.mjs";

/** The numbers of places that are no typed array. */
export const DATA_VIEW = KINDS.length;
export const WHOLE_BUFFER = KINDS.length + 1;

/** @type {Record<string, number>} the number of each kind, by the name of its constructor */
const kindNumbers = create(null);
for (let kind = 0; kind < KINDS.length; kind += 1) kindNumbers[`${KINDS[kind]}Array`] = kind;
const FIRST_BIG = kindNumbers.BigInt64Array;

/** @param {string} tag of a typed array, which is its constructor's name @returns {number} its kind */
export const kindNumbered = (tag) => kindNumbers[tag];

/** The engine's constructors, by their kind. */
export const ENGINE = CONSTRUCTORS;
const EngineView = DataView;

/** What is known about each array of this realm, by what stands for it in the agents' code. */
const arrays = new WeakMap();

/** A constructor that returns its argument, so that a subclass can add a private field to an existing object. */
const Same = /** @type {{ new (object: object): object }} */ (/** @type {unknown} */ (
  /** @param {object} object */
  function (object) {
    return object;
  }
));

/** What stands for a DataView has a field, which costs private ones less. */
class Marked extends Same {
  /** @type {Watched} */
  #watched;

  /** @param {object} object @param {Watched} watched */
  constructor(object, watched) {
    super(object);
    this.#watched = watched;
  }

  /** @param {object} view @returns {Watched | undefined} */
  static of(view) {
    return #watched in view ? view.#watched : undefined;
  }
}

/** A watched array or DataView. */
export class Watched {
  /**
   * @param {any} real the engine's own; the kind says what type its elements have
   * @param {import("./context.mjs").WatchedPlace} place
   * @param {number} size bytes of an element
   */
  constructor(real, place, size) {
    this.real = real;
    this.place = place;
    this.size = size;
    this.offset = place.offset;
    this.length = place.length;
    this.kind = place.kind;
    this.big = place.kind === FIRST_BIG || place.kind === FIRST_BIG + 1;
    /** Whether its length may follow that of its buffer. */
    this.follows = false;
    /** @type {any} what agents see as its buffer */
    this.buffer = undefined;
    /** @type {any} what agents hold */
    this.standIn = undefined;
    /** @type {object | undefined} the same elements, for the engine's iterators */
    this.elements = undefined;
  }
}

/**
 * @typedef {Watched & { reportElement(index: number, writes: boolean): void }} WatchedArray that reports each element
 */

/**
 * A view on a recorded buffer itself, in place of one on another object that has its memory.
 * @param {object} real
 * @param {object} buffer
 * @param {{ new (buffer: any, offset: number, length: number): object }} Engine
 * @param {number} offset
 * @param {number} length
 */
function onOriginal(real, buffer, Engine, offset, length) {
  const original = originalOf(buffer);
  // The engine's own array alone knows whether its length follows that of its buffer.
  if (original === buffer || isGrowable(buffer)) return real;
  const view = new Engine(original, offset, length);
  setPrototypeOf(view, getPrototypeOf(real));
  return view;
}

/**
 * Sets the length of an array on a buffer that grows to that of the engine's own array.
 * @param {Watched} watched
 * @param {(real: object) => number} slot its length
 */
function follow(watched, slot) {
  const { real } = watched;
  watched.follows = true;
  defineProperty(watched, "length", { get: () => slot(real) });
}

/** @param {Watched} watched whose length the agents' code asks for @returns {number} */
export function askedLength(watched) {
  if (watched.follows) watching.lengthAsked(watched.place);
  return watched.length;
}

/**
 * What memory an array is on.
 * @param {import("./context.mjs").WatchedPlace} place
 * @param {object} buffer
 */
function placed(place, buffer) {
  if (place.block !== OTHER) return place;
  reportOthers();
  return { ...place, memory: originalOf(buffer) };
}

/**
 * @template {Watched} Kept
 * @param {object} real one of the typed arrays
 * @param {number} block
 * @param {{ new (real: any, place: import("./context.mjs").WatchedPlace, size: number): Kept }} Kind what is made of it
 */
export function arrayOn(real, block, Kind) {
  const kind = kindNumbers[tagOf(real)];
  if (kind === undefined) refused(`a ${tagOf(real)} was made on a recorded buffer`);
  const buffer = bufferOf(real);
  const place = placed({ block, kind, offset: offsetOf(real), length: lengthOf(real) }, buffer);
  const watched = new Kind(onOriginal(real, buffer, ENGINE[kind], place.offset, place.length), place, SIZES[kind]);
  watched.buffer = buffer;
  if (isGrowable(buffer)) follow(watched, lengthOf);
  return watched;
}

/** @param {DataView} real @param {number} block */
export function viewOn(real, block) {
  const buffer = viewBufferOf(real);
  const place = placed({ block, kind: DATA_VIEW, offset: viewOffsetOf(real), length: viewLengthOf(real) }, buffer);
  const watched = new Watched(onOriginal(real, buffer, EngineView, place.offset, place.length), place, 1);
  watched.buffer = buffer;
  if (isGrowable(buffer)) follow(watched, viewLengthOf);
  return watched;
}

/** @param {Watched} watched an array @param {object} standIn */
export function registerArray(watched, standIn) {
  watched.standIn = standIn;
  weakSet(arrays, standIn, watched);
}

/** @param {Watched} watched a DataView @param {object} standIn */
export function registerView(watched, standIn) {
  watched.standIn = standIn;
  new Marked(standIn, watched);
}

/**
 * What is known about a typed array that agents hold, or undefined if it isn't watched.
 * @param {unknown} value
 * @returns {WatchedArray | undefined}
 */
export const watchedOf = (value) => weakGet(arrays, value);

/**
 * The same for an object that may be a DataView. What is no object is none, and throws.
 * @type {(view: object) => Watched | undefined}
 */
export const watchedView = Marked.of;

/** @param {any} value @returns {Watched | undefined} of an array or of a DataView */
export function anyWatchedOf(value) {
  const watched = weakGet(arrays, value);
  if (watched !== undefined || typeof value !== "object" || value === null) return watched;
  return watchedView(value);
}

/** @param {any} value @returns {any} the engine's array behind a watched one, or the value itself */
export function unwrapped(value) {
  const watched = anyWatchedOf(value);
  return watched === undefined ? value : watched.real;
}

/**
 * Reports that elements are read or written.
 * @param {Watched} watched
 * @param {number} from the first element
 * @param {number} to behind the last
 * @param {boolean} writes
 */
export function report(watched, from, to, writes) {
  if (from >= to) return;
  const { place, offset, size } = watched;
  watching.seen(place, offset + from * size, offset + to * size, writes);
}

/**
 * Reports that all of it is read or written.
 * @param {Watched} watched
 * @param {boolean} writes
 */
export function reportAll(watched, writes) {
  report(watched, 0, watched.length, writes);
}
