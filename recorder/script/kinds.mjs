// The kinds of typed arrays that a script can have, and the functions of Atomics that it can call.

import { mapGet, tagOf } from "../lib/primordials.mjs";

/**
 * The names of the kinds that a script can have.
 * @type {readonly string[]}
 */
export const SCRIPT_KINDS = Object.freeze([
  "Int8", "Uint8", "Uint8Clamped", "Int16", "Uint16", "Int32", "Uint32", "Float32", "Float64", "BigInt64", "BigUint64",
]);

const LATER_KIND = Object.freeze({ name: "Float16", bytes: 2 });

/**
 * The names of all kinds. A kind's position here is its number in a record. The last one isn't in every engine.
 * @type {readonly string[]}
 */
export const KINDS = Object.freeze([...SCRIPT_KINDS, LATER_KIND.name]);

/** @typedef {typeof Int8Array & typeof BigInt64Array & { new (...given: any[]): any }} KindConstructor */

/**
 * The constructor of each kind that this engine has, by its number. The kind of an array is known when the code runs,
 * and not by its type.
 */
export const CONSTRUCTORS = Object.freeze(KINDS.map((kind) => {
  return /** @type {Record<string, KindConstructor>} */ (/** @type {object} */ (globalThis))[`${kind}Array`];
}).filter((constructor) => constructor !== undefined));

/** The constructor of each kind that a script can have, by its number. */
export const SCRIPT_CONSTRUCTORS = Object.freeze(CONSTRUCTORS.slice(0, SCRIPT_KINDS.length));

/** How many bytes an element of each kind has, by its number. */
export const SIZES = Object.freeze([
  ...SCRIPT_CONSTRUCTORS.map((constructor) => constructor.BYTES_PER_ELEMENT), LATER_KIND.bytes,
]);

const FIRST_BIG = KINDS.indexOf("BigInt64");

/** @param {number} kind @returns {boolean} whether its elements are BigInts */
export const isBigKind = (kind) => kind === FIRST_BIG || kind === FIRST_BIG + 1;

/**
 * @typedef {object} Taken what a call takes
 * @property {string} name of the function of Atomics
 * @property {number} operands how many Numbers or BigInts, after its view and index, without a timeout or a count
 */

/**
 * The calls that a script can have. A call's position here is its number in a record.
 * @type {readonly Taken[]}
 */
export const CALLS = Object.freeze([
  { name: "load", operands: 0 },
  { name: "store", operands: 1 },
  { name: "exchange", operands: 1 },
  { name: "add", operands: 1 },
  { name: "sub", operands: 1 },
  { name: "and", operands: 1 },
  { name: "or", operands: 1 },
  { name: "xor", operands: 1 },
  { name: "compareExchange", operands: 2 },
  { name: "wait", operands: 1 },
  { name: "notify", operands: 0 },
]);

/** The number of each call, by its name. */
export const CALL_NUMBERS = Object.freeze(Object.fromEntries(CALLS.map((call, number) => [call.name, number])));

const NUMBERS = new Map(SCRIPT_KINDS.map((kind, number) => [`${kind}Array`, number]));

/**
 * The number of a value's kind, or -1 for a value that is no typed array of a kind that a script can have. It asks the
 * engine's own slot of the value, so a class that extends a typed array has its kind too.
 * @param {unknown} value
 * @returns {number}
 */
export function kindOf(value) {
  const tag = tagOf(value);
  return tag === undefined ? -1 : mapGet(NUMBERS, tag) ?? -1;
}
