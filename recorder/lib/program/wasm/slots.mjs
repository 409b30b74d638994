// The functions that translated code calls in place of an access to its memory, or just before one. They are in a table
// of the module, so that no function of the module's own gets another number.

/**
 * @typedef {object} Slot
 * @property {string} name of the function
 * @property {string} type its parameters and results, a letter for each
 */

/** How many bytes a page of memory has. */
export const PAGE = 65_536;

/** The letters of types, with their bytes: numbers of 32 and 64 bits, floating ones of these, and vectors. */
const TYPES = Object.freeze({ i: 0x7f, l: 0x7e, f: 0x7d, d: 0x7c, v: 0x7b });

/** The variants of each atomic access, in their order: the type of its value, and how many bytes it takes. */
export const VARIANTS = Object.freeze(["i4", "l8", "i1", "i2", "l1", "l2", "l4"]);

/** The atomic accesses that have variants, in the order of their numbers, and how many values each takes. */
export const ATOMICS = Object.freeze({
  load: 0, store: 1, add: 1, sub: 1, and: 1, or: 1, xor: 1, exchange: 1, compareExchange: 2,
});

/** The number of the first one that has variants. */
const FIRST_VARIED = 0x10;

/** @param {string} name @param {string} type @returns {Slot} */
const slot = (name, type) => ({ name, type });

/** @param {[string, number]} access @returns {Slot[]} those of an atomic access */
const variantsOf = ([name, values]) => VARIANTS.map((variant) => {
  const [value] = variant;
  return slot(`${name} ${variant}`, `i${value.repeat(values)}ii>${name === "store" ? "" : value}`);
});

// The last argument of each is where its instruction is. For accesses, what is added to the address comes before that.
const PLAIN = Object.freeze([
  slot("read", "iiii>i"), slot("readBeside", "iviii>iv"),
  ...["i", "l", "f", "d", "v"].map((value) => slot(`write ${value}`, `i${value}iii>i${value}`)),
  slot("fill", "iiii>iii"), slot("copy", "iiii>iii"), slot("grow", "ii>i"), slot("size", "i>i"),
]);

const WAITING = Object.freeze([slot("notify", "iiii>i"), slot("wait i4", "iilii>i"), slot("wait l8", "illii>i")]);

/** @type {readonly Slot[]} by their positions in the table */
export const SLOTS = Object.freeze([...PLAIN, ...WAITING, ...Object.entries(ATOMICS).flatMap(variantsOf)]);

/** All types of functions in the table, without repeats. */
export const SLOT_TYPES = Object.freeze([...new Set(SLOTS.map(({ type }) => type))]);

/** @param {string} name @returns {number} its position in the table */
export const slotNamed = (name) => SLOTS.findIndex((each) => each.name === name);

/** @param {number} code of an atomic instruction @returns {number} its position in the table */
export const slotOfAtomic = (code) =>
  PLAIN.length + (code < FIRST_VARIED ? code : WAITING.length + code - FIRST_VARIED);

/** @param {string} type as a slot has it @returns {number[]} the type of a function in a module */
export function typeBytes(type) {
  const [given, results] = type.split(">").map((letters) => [...letters].map((letter) =>
    TYPES[/** @type {keyof typeof TYPES} */ (letter)]));
  return [0x60, given.length, ...given, results.length, ...results];
}
