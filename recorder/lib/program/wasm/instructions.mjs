// The instructions of WebAssembly, as far as a reader has to know them: what follows each one's number, and which of
// them use the memory.

/** @typedef {import("./bytes.mjs").ByteReader} ByteReader */

/** What follows an instruction: numbers in LEB128 as many as the digit says, or what a letter says. */
const FOLLOWS = new Map([
  ...rows("", [0x00, 0x01, 0x05, 0x0a, 0x0b, 0x0f, 0x19, 0x1a, 0x1b, 0xd1], [0x45, 0xc4]),
  ...rows("1", [
    0x02, 0x03, 0x04, 0x06, 0x07, 0x08, 0x09, 0x0c, 0x0d, 0x10, 0x12, 0x14, 0x15, 0x18, 0x3f, 0x40, 0x41, 0x42, 0xd0,
    0xd2,
  ], [0x20, 0x26]),
  ...rows("2", [0x11, 0x13]),
  ...rows("m", [], [0x28, 0x3e]),
  ...rows("l", [0x0e]),
  ...rows("t", [0x1c]),
  ...rows("f", [0x43]),
  ...rows("d", [0x44]),
]);

/** The same behind the byte 0xfc. */
const BULK = ["", "", "", "", "", "", "", "", "2", "1", "2", "1", "2", "1", "2", "1", "1", "1"];

/**
 * @param {string} what
 * @param {number[]} single
 * @param {[number, number]} [range] the first one and the last one
 * @returns {[number, string][]}
 */
function rows(what, single, range) {
  const more = range === undefined ? [] : Array.from({ length: range[1] - range[0] + 1 }, (_, at) => range[0] + at);
  return [...single, ...more].map((each) => [each, what]);
}

/** @param {number} vector the number of an instruction behind 0xfd @returns {string} */
function followsVector(vector) {
  if (vector <= 11 || vector === 92 || vector === 93) return "m";
  if (vector === 12 || vector === 13) return "v";
  if (vector >= 21 && vector <= 34) return "b";
  return vector >= 84 && vector <= 91 ? "mb" : "";
}

/**
 * @typedef {object} Instruction
 * @property {number} prefix 0xfc, 0xfd or 0xfe, or 0 if there is none
 * @property {number} code its number behind that
 * @property {number} offset that is added to the address, if it uses the memory
 */

/** @param {number} prefix @param {number} code @returns {string} */
function followsOf(prefix, code) {
  if (prefix === 0xfd) return followsVector(code);
  if (prefix === 0xfe) return code === 3 ? "b" : "m";
  const found = prefix === 0xfc ? BULK[code] : FOLLOWS.get(code);
  if (found !== undefined) return found;
  throw new SyntaxError(`instruction ${prefix === 0 ? "" : "0xfc "}0x${code.toString(16)}`);
}

/** @param {ByteReader} reader @returns {number} the offset of an access to the memory */
function offsetOf(reader) {
  // The sixth bit says that a memory's number follows.
  if ((reader.number() & 64) !== 0) reader.skipNumber();
  return reader.number();
}

/** @type {Record<string, (reader: ByteReader) => void>} */
const SKIPS = {
  1: (reader) => reader.skipNumber(),
  2: (reader) => {
    reader.skipNumber();
    reader.skipNumber();
  },
  l: (reader) => {
    for (let left = reader.number() + 1; left > 0; left -= 1) reader.skipNumber();
  },
  t: (reader) => {
    for (let left = reader.number(); left > 0; left -= 1) reader.skipNumber();
  },
  b: (reader) => void reader.byte(),
  f: (reader) => void reader.take(4),
  d: (reader) => void reader.take(8),
  v: (reader) => void reader.take(16),
};

/**
 * Reads an instruction, with what follows it.
 * @param {ByteReader} reader
 * @returns {Instruction}
 * @throws {SyntaxError} for one that isn't known, with its number
 */
export function instruction(reader) {
  const first = reader.byte();
  const isPrefix = first >= 0xfc && first <= 0xfe;
  const read = { prefix: isPrefix ? first : 0, code: isPrefix ? reader.number() : first, offset: 0 };
  for (const what of followsOf(read.prefix, read.code)) {
    if (what === "m") read.offset = offsetOf(reader);
    else SKIPS[what](reader);
  }
  return read;
}
