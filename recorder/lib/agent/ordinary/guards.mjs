// Functions of node and the engine that can't see through a watched array: what is done when recorded memory is given
// to them.

import { apply, construct, isArray, proxyOf, put } from "../../primordials.mjs";
import { anyOthers, refused } from "./context.mjs";
import { methodOf } from "./patch.mjs";
import { REVEALING, SHALLOW, WHOLLY, isRecorded, mirrored, reaches } from "./reach.mjs";
import { anyWatchedOf, reportAll, unwrapped } from "./watched.mjs";

/** @typedef {import("./patch.mjs").StandInMaker} StandInMaker */

const EngineMap = Map;

/**
 * Whether any of what is given is watched memory, or has some in it.
 * @param {unknown[]} given
 * @param {number} depth
 * @param {boolean} [suspicious]
 * @param {import("./reach.mjs").Test} [isIt] which memory is looked for
 */
export function anyReaches(given, depth, suspicious, isIt) {
  for (let at = 0; at < given.length; at += 1) {
    if (reaches(given[at], depth, suspicious, isIt)) return true;
  }
  return false;
}

/**
 * Puts the engine's own arrays in the place of those on memory that isn't recorded.
 * @param {unknown[]} given
 * @returns {unknown[]}
 */
export function revealed(given) {
  if (!anyOthers()) return given;
  const made = new EngineMap();
  for (let at = 0; at < given.length; at += 1) given[at] = mirrored(given[at], made, REVEALING);
  return given;
}

/**
 * Makes what is given private, in its place, and reports that it is read.
 * @param {unknown[]} given
 * @param {number} [depth] how many objects deep it is looked for
 * @returns {unknown[]}
 */
export function madePrivate(given, depth = WHOLLY) {
  if (!anyReaches(given, depth)) return given;
  const made = new EngineMap();
  for (let at = 0; at < given.length; at += 1) given[at] = mirrored(given[at], made);
  return given;
}

/** @type {StandInMaker} private copies are given, which are reported as reads */
export const copying = (engine) => methodOf((self, given) => apply(engine, self, madePrivate(given)), engine);

/** @type {StandInMaker} the same for what is given itself, if that may be any object */
export const copyingGiven = (engine) => methodOf((self, given) => apply(engine, self, madePrivate(given, 0)), engine);

/**
 * What a function writes: the engine's own array, reported as written. A list has several.
 * @param {unknown} value
 */
function writable(value) {
  const watched = anyWatchedOf(value);
  if (watched === undefined) return value;
  reportAll(watched, true);
  return watched.real;
}

/** @param {unknown[]} list */
function eachWritable(list) {
  const made = [];
  for (let at = 0; at < list.length; at += 1) made[at] = writable(list[at]);
  return made;
}

/** @type {StandInMaker} the engine's own array is given, which is reported as written, or a list of such */
export const writing = (engine) => methodOf((self, given) => {
  if (!anyReaches(given, SHALLOW)) return apply(engine, self, given);
  const reals = [];
  for (let at = 0; at < given.length; at += 1) {
    reals[at] = isArray(given[at]) ? eachWritable(given[at]) : writable(given[at]);
  }
  const answer = apply(engine, self, reals);
  // Agents get back what they gave.
  for (let at = 0; at < given.length; at += 1) {
    if (answer === reals[at]) return given[at];
  }
  return answer;
}, engine);

/** @type {StandInMaker} the engine's own arrays are given, and nothing of them is read */
export const looking = (engine) => methodOf((self, given) => {
  for (let at = 0; at < given.length; at += 1) given[at] = unwrapped(given[at]);
  return apply(engine, self, given);
}, engine);

/**
 * Ends the run if recorded memory is given.
 * @param {string} what the function is called
 * @param {number} [depth]
 * @param {boolean} [suspicious]
 * @returns {StandInMaker}
 */
export const refusing = (what, depth = SHALLOW, suspicious = false) => (engine) => methodOf((self, given) => {
  if (anyReaches(given, depth, suspicious, isRecorded)) refused(`${what} was given recorded memory`);
  return apply(engine, self, revealed(given));
}, engine);

/**
 * A class whose constructor is given something else, or nothing.
 * @param {Function} engine
 * @param {(given: unknown[]) => unknown[]} make what is given in the place of what was
 * @returns {Function}
 */
export const constructing = (engine, make) => {
  /** @type {ProxyHandler<Function>} */
  const traps = {
    construct: (target, given, newTarget) => construct(target, make(given), newTarget === StandIn ? target : newTarget),
  };
  /** @type {Function} */
  const StandIn = proxyOf(engine, traps);
  put(engine.prototype, "constructor", StandIn);
  return StandIn;
};

/**
 * For a constructor: ends the run if recorded memory is given.
 * @param {string} what
 * @returns {(given: unknown[]) => unknown[]}
 */
export const refusingGiven = (what) => (given) => {
  if (anyReaches(given, WHOLLY, true, isRecorded)) refused(`${what} was given recorded memory`);
  return revealed(given);
};
