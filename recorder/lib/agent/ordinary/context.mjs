// What a watched realm asks and reports to: which buffers are recorded, what gets the accesses, and what ends a run.

import { weakGet, weakSet } from "../../primordials.mjs";

/** The number that shared memory has as its block if it isn't recorded. No block has it. */
export const OTHER = 2 ** 30 - 1;

/**
 * @typedef {object} WatchedPlace what memory a watched array is on; one object for each watched array, made once
 * @property {number} block position of the recorded buffer
 * @property {number} kind its number in KINDS, KINDS.length for a DataView, KINDS.length + 1 for a whole buffer
 * @property {number} offset byteOffset of the view
 * @property {number} length its elements; bytes for a DataView or a whole buffer
 * @property {object} [memory] the buffer, if it isn't recorded
 */

/**
 * @typedef {object} Watching
 * @property {(buffer: unknown) => number} blockOf position among the recorded buffers, or -1
 * @property {(place: WatchedPlace, from: number, to: number, writes: boolean) => void} seen gets bytes of the block
 * before
 *   they are read or written; it may throw, and then nothing was done
 * @property {(place: WatchedPlace) => void} [lengthAsked] gets an array on a buffer that grows before its length is
 * asked for
 * @property {(buffer: unknown) => boolean} [isUnrecorded] whether a buffer is shared memory that isn't recorded
 * @property {(memory: object) => void} [seenUnrecorded] gets such memory before it is read or written
 * @property {(memory: object) => void} [copied] gets new memory with a copy of bytes, which is no memory of the
 * program's
 * @property {(called: Function) => boolean} [isCalledByAgents] whether their code has called a function, and not node
 * @property {(what: string) => void} [given] gets what has given such memory, or a port, to another thread
 * @property {(why: string) => never} refuse ends the run
 */

/** @type {Required<Watching>} the module's own: a realm is patched once, and its patches look here */
export const watching = {
  blockOf: () => -1,
  seen: () => {},
  lengthAsked: () => {},
  isUnrecorded: () => false,
  seenUnrecorded: () => {},
  copied: () => {},
  isCalledByAgents: () => true,
  given: () => {},
  refuse: (why) => {
    throw new Error(why);
  },
};

/** @param {Watching} given */
export function begin(given) {
  Object.assign(watching, given);
}

/** Other buffer objects on the memory of a recorded one, as structuredClone makes them: the recorded one of each. */
const others = new WeakMap();

/** @param {object} buffer another object on the memory of a recorded buffer @param {object} recorded */
export function learn(buffer, recorded) {
  weakSet(others, buffer, originalOf(recorded));
}

/** @param {object} buffer @returns {any} the recorded buffer whose memory a buffer has, or itself */
export const originalOf = (buffer) => weakGet(others, buffer) ?? buffer;

/**
 * The position of the recorded buffer that a buffer is, or shares its memory with; or -1.
 * @param {unknown} buffer
 * @returns {number}
 */
export function blockNumber(buffer) {
  const block = watching.blockOf(buffer);
  if (block >= 0) return block;
  const original = weakGet(others, buffer);
  return original === undefined ? -1 : watching.blockOf(original);
}

/**
 * The same, but memory that isn't recorded has a number too.
 * @param {unknown} buffer
 * @returns {number}
 */
export function memoryNumber(buffer) {
  const block = blockNumber(buffer);
  return block < 0 && watching.isUnrecorded(originalOf(/** @type {object} */ (buffer))) ? OTHER : block;
}

let hasOthers = false;

/** @returns {boolean} whether arrays were made on memory that isn't recorded */
export const anyOthers = () => hasOthers;

/** Reports accesses to memory that isn't recorded from now on. Until then those to recorded memory cost no look. */
export function reportOthers() {
  if (hasOthers) return;
  hasOthers = true;
  const { seen } = watching;
  watching.seen = (place, from, to, writes) => {
    if (place.memory === undefined) seen(place, from, to, writes);
    else watching.seenUnrecorded(place.memory);
  };
}

/**
 * Ends the run: what was done can't be watched.
 * @param {string} what
 * @returns {never}
 */
export function refused(what) {
  return watching.refuse(`${what}, which can't be watched: --ordinary store lets it pass`);
}
