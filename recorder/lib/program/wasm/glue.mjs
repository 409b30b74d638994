// The module between translated code and the recorder: it fills the table of functions. Those that give back what is on
// the stack are made here, since the recorder would need a list for more than one result.

import { ByteWriter, name, number, vector } from "./bytes.mjs";
import { SLOTS, typeBytes } from "./slots.mjs";

const { Set: EngineSet, Uint8Array: Bytes } = globalThis;

const LOCAL_GET = 0x20;
const CALL = 0x10;
const DROP = 0x1a;
const END = 0x0b;
const FUNCREF = 0x70;

/** The instructions that turn a written value into a number of 64 bits. */
const BITS = Object.freeze({ i: [0xad], l: [], f: [0xbc, 0xad], d: [0xbd] });

/** @type {readonly string[]} what the recorder gives besides the functions of the table that aren't made here */
const GIVEN = Object.freeze(["write", "store", "filled", "copied"]);
const GIVEN_TYPES = Object.freeze(["iiii>", "iiiil>", "iii>", "iiii>"]);

/** @param {number[]} positions of parameters @returns {number[]} the code that puts them on the stack */
const got = (positions) => positions.flatMap((at) => [LOCAL_GET, at]);

/** @param {string} called one of `GIVEN` @returns {number[]} */
const call = (called) => [CALL, ...number(GIVEN.indexOf(called))];

/**
 * The code of a function that is made here.
 * @param {string} slot its name
 * @param {boolean} isRelaxed whether plain accesses are relaxed ones
 * @returns {number[] | undefined} none: it is the recorder's
 */
function codeOf(slot, isRelaxed) {
  if (slot === "fill") return [...got([0, 2, 3]), ...call("filled"), ...got([0, 1, 2])];
  if (slot === "copy") return [...got([0, 1, 2, 3]), ...call("copied"), ...got([0, 1, 2])];
  // The function `read` is the first one behind those that are given.
  if (slot === "readBeside") return [...got([0, 2, 3, 4]), CALL, ...number(GIVEN.length), DROP, ...got([0, 1])];
  if (!slot.startsWith("write ")) return undefined;
  const bits = BITS[/** @type {keyof typeof BITS} */ (slot.at(-1))];
  const isStore = isRelaxed && bits !== undefined;
  const noted = isStore ? [...got([1]), ...bits, ...call("store")] : call("write");
  return [...got([0, 2, 3, 4]), ...noted, ...got([0, 1])];
}

/**
 * The bytes of the module.
 * @param {boolean} isRelaxed whether plain accesses are relaxed ones
 * @returns {Uint8Array}
 */
export function glueBytes(isRelaxed) {
  const codes = SLOTS.map((slot) => codeOf(slot.name, isRelaxed));
  const imported = SLOTS.filter((_, at) => codes[at] === undefined);
  const made = SLOTS.filter((_, at) => codes[at] !== undefined);
  const functions = [...GIVEN.map((each, at) => ({ name: each, type: GIVEN_TYPES[at] })), ...imported];
  const all = [...functions, ...made];
  const types = [...new EngineSet(all.map(({ type }) => type))];
  const typeOf = (/** @type {{ type: string }} */ { type }) => number(types.indexOf(type));
  const imports = [
    ...functions.map((each) => [...name("recorder"), ...name(each.name), 0, ...typeOf(each)]),
    [...name("module"), ...name("table"), 1, FUNCREF, 0, ...number(SLOTS.length)],
  ];
  const bodies = codes.flatMap((code) => (code === undefined ? [] : [[...number(code.length + 2), 0, ...code, END]]));
  const elements = vector([[0, 0x41, 0, END, ...vector(SLOTS.map((each) => number(all.indexOf(each))))]]);
  const writer = new ByteWriter();
  writer.add([0x00, 0x61, 0x73, 0x6d, 0x01, 0x00, 0x00, 0x00]);
  const sections = [
    [1, vector(types.map(typeBytes))], [2, vector(imports)], [3, vector(made.map(typeOf))], [9, elements],
    [10, vector(bodies)], [0, [...name("name"), ...namesOf(all)]],
  ];
  for (const [id, content] of sections) {
    writer.addSized(new Bytes(/** @type {number[]} */ (content)), [/** @type {number} */ (id)]);
  }
  return writer.taken();
}

/** The module's own name, by which its frames are known in a stack, and those of its functions. */
const GLUE_NAME = "sabsim";

/** @param {readonly { name: string }[]} functions @returns {number[]} */
function namesOf(functions) {
  const module = name(GLUE_NAME);
  const each = vector(functions.map((one, at) => [...number(at), ...name(one.name)]));
  return [0, ...number(module.length), ...module, 1, ...number(each.length), ...each];
}
