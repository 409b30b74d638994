// Translates a module that uses shared memory: before each of its accesses a function of the recorder is called, or in
// its place if it is atomic. All else stays as it is, and so do the numbers and names of its functions.

import { ByteReader, ByteWriter, name, number, signed, vector } from "./bytes.mjs";
import { instruction } from "./instructions.mjs";
import { SLOTS, SLOT_TYPES, slotNamed, slotOfAtomic, typeBytes } from "./slots.mjs";

const { Map: EngineMap, Uint8Array: Bytes } = globalThis;

/** What the translated module exports besides its own. */
export const OWN = Object.freeze({ TABLE: "sabsim.table", MEMORY: "sabsim.memory", START: "sabsim.start" });

/**
 * The section in which a translated module has how many pages its own memory can have, and where its data goes when it
 * begins: each position and length.
 */
export const DATA = "sabsim.data";

const ID = Object.freeze({
  CUSTOM: 0, TYPE: 1, IMPORT: 2, TABLE: 4, MEMORY: 5, EXPORT: 7, START: 8, CODE: 10, DATA: 11,
});
const ORDER = Object.freeze([1, 2, 3, 4, 5, 13, 6, 7, 8, 9, 12, 10, 11]);
const HEAD = Object.freeze([0x00, 0x61, 0x73, 0x6d, 0x01, 0x00, 0x00, 0x00]);
const KIND = Object.freeze({ FUNCTION: 0, TABLE: 1, MEMORY: 2, GLOBAL: 3, TAG: 4 });
const SHARED = 2;

const CONST = 0x41;
const CALL_INDIRECT = 0x11;

/** How many bytes plain reads take, from instruction 0x28 on; and what plain writes take, from 0x36 on. */
const READS = Object.freeze([4, 8, 4, 8, 1, 1, 2, 2, 1, 1, 2, 2, 4, 4]);
const WRITES = Object.freeze(["i4", "l8", "f4", "d8", "i1", "i2", "l1", "l2", "l4"]);
const VECTOR_READS = Object.freeze([16, 8, 8, 8, 8, 8, 8, 1, 2, 4, 8]);

/** @typedef {{ content: Uint8Array, at: number }} Section its bytes, and where they are in the module */

/**
 * @typedef {{ name: string, operands: number[], stays: boolean }} TranslatedCall what is called, and whether its access
 * stays
 */

/**
 * @param {Uint8Array} bytes of a module
 * @returns {{ sections: Map<number, Section>, custom: Uint8Array[] }}
 */
function sectionsOf(bytes) {
  const reader = new ByteReader(bytes, HEAD.length);
  const sections = new EngineMap();
  const custom = [];
  while (reader.at < bytes.length) {
    const id = reader.byte();
    const content = reader.take(reader.number());
    if (id === ID.CUSTOM) custom.push(content);
    else sections.set(id, { content, at: reader.at - content.length });
  }
  return { sections, custom };
}

/**
 * @param {ByteReader} reader
 * @returns {{ isShared: boolean, most: number }} limits of a memory or table, which it reads
 */
function limits(reader) {
  const flags = reader.number();
  const least = reader.number();
  return { isShared: (flags & SHARED) !== 0, most: (flags & 1) === 0 ? least : reader.number() };
}

/** @param {Section | undefined} section @returns {ByteReader} */
const readerOf = (section) => new ByteReader(section?.content ?? new Bytes([0]));

/** @param {Map<number, Section>} sections what the module has of each */
function counted(sections) {
  const imports = readerOf(sections.get(ID.IMPORT));
  const found = { tables: readerOf(sections.get(ID.TABLE)).number(), isShared: false, most: 0 };
  for (let left = imports.number(); left > 0; left -= 1) {
    imports.name();
    imports.name();
    const kind = imports.byte();
    if (kind === KIND.FUNCTION) imports.skipNumber();
    if (kind === KIND.TABLE) {
      found.tables += 1;
      imports.skipNumber();
      limits(imports);
    }
    if (kind === KIND.MEMORY) Object.assign(found, limits(imports));
    if (kind === KIND.GLOBAL || kind === KIND.TAG) {
      imports.skipNumber();
      imports.skipNumber();
    }
  }
  const memories = readerOf(sections.get(ID.MEMORY));
  for (let left = memories.number(); left > 0; left -= 1) Object.assign(found, limits(memories));
  return found;
}

/** @param {number} code @param {number} offset @returns {TranslatedCall | undefined} of an instruction with one byte */
function plainStep(code, offset) {
  const read = READS[code - 0x28];
  if (read !== undefined) return { name: "read", operands: [offset, read], stays: true };
  const write = WRITES[code - 0x36];
  if (write !== undefined) return { name: `write ${write[0]}`, operands: [offset, Number(write[1])], stays: true };
  if (code === 0x3f) return { name: "size", operands: [], stays: false };
  return code === 0x40 ? { name: "grow", operands: [], stays: false } : undefined;
}

/** @param {number} code @param {number} offset @returns {TranslatedCall | undefined} of an instruction on vectors */
function vectorStep(code, offset) {
  const read = VECTOR_READS[code] ?? { 92: 4, 93: 8 }[code];
  if (read !== undefined) return { name: "read", operands: [offset, read], stays: true };
  if (code === 11) return { name: "write v", operands: [offset, 16], stays: true };
  const lane = 2 ** ((code - 84) % 4);
  if (code >= 84 && code <= 87) return { name: "readBeside", operands: [offset, lane], stays: true };
  return code >= 88 && code <= 91 ? { name: "write v", operands: [offset, lane], stays: true } : undefined;
}

/**
 * @param {import("./instructions.mjs").Instruction} read
 * @returns {TranslatedCall | undefined} none: it uses no memory
 */
function stepOf({ prefix, code, offset }) {
  if (prefix === 0) return plainStep(code, offset);
  if (prefix === 0xfd) return vectorStep(code, offset);
  if (prefix === 0xfe) {
    return code === 3 ? undefined : { name: SLOTS[slotOfAtomic(code)].name, operands: [offset], stays: false };
  }
  if (code === 8 || code === 11) return { name: "fill", operands: [], stays: true };
  return code === 10 ? { name: "copy", operands: [], stays: true } : undefined;
}

/** The code of a module, as it is translated. */
class Code {
  /** @param {number} at where the section's bytes are in the module @param {number} table @param {number} types */
  constructor(at, table, types) {
    this.at = at;
    this.table = table;
    this.types = types;
  }

  /**
   * @param {TranslatedCall} step
   * @param {number} where its instruction is
   * @returns {number[]} the call of its function
   */
  #call({ name: called, operands }, where) {
    const position = slotNamed(called);
    const type = this.types + SLOT_TYPES.indexOf(SLOTS[position].type);
    const given = [...operands, this.at + where, position].flatMap((each) => [CONST, ...signed(each)]);
    return [...given, CALL_INDIRECT, ...number(type), ...number(this.table)];
  }

  /**
   * @param {ByteReader} reader at a function's variables
   * @param {number} end of its instructions
   * @returns {Uint8Array}
   */
  #body(reader, end) {
    const { bytes } = reader;
    const writer = new ByteWriter();
    let from = reader.at;
    for (let left = reader.number(); left > 0; left -= 1) {
      reader.skipNumber();
      reader.skipNumber();
    }
    while (reader.at < end) {
      const { at } = reader;
      const step = stepOf(instruction(reader));
      if (step === undefined) continue;
      writer.add(bytes.subarray(from, at));
      writer.add(this.#call(step, at));
      from = step.stays ? at : reader.at;
    }
    writer.add(bytes.subarray(from, end));
    return writer.taken();
  }

  /** @param {Uint8Array} content @returns {Uint8Array} */
  translated(content) {
    const reader = new ByteReader(content);
    const writer = new ByteWriter();
    const functions = reader.number();
    writer.add(number(functions));
    for (let left = functions; left > 0; left -= 1) {
      const size = reader.number();
      writer.addSized(this.#body(reader, reader.at + size));
    }
    return writer.taken();
  }
}

/** @param {Section | undefined} section @param {number[][]} items @returns {Uint8Array} with items added to its list */
function extended(section, items) {
  const reader = readerOf(section);
  const writer = new ByteWriter();
  writer.add(number(reader.number() + items.length));
  writer.add(reader.bytes.subarray(reader.at));
  writer.add(items.flat());
  return writer.taken();
}

/** @param {Section | undefined} section @returns {number[][]} where data goes when the module begins */
function dataOf(section) {
  const reader = readerOf(section);
  const found = [];
  for (let left = reader.number(); left > 0; left -= 1) {
    const flag = reader.number();
    if (flag === 2) reader.skipNumber();
    let at = -1;
    if (flag !== 1) {
      if (reader.byte() !== CONST) throw new SyntaxError("data at a place that isn't constant");
      at = reader.signed() >>> 0;
      reader.byte();
    }
    const { length } = reader.take(reader.number());
    if (at >= 0) found.push([...number(at), ...number(length)]);
  }
  return found;
}

/** @param {Map<number, Section>} sections @param {number} table @returns {number[][]} what is exported in addition */
function exported(sections, table) {
  const start = sections.get(ID.START);
  return [
    [...name(OWN.TABLE), KIND.TABLE, ...number(table)], [...name(OWN.MEMORY), KIND.MEMORY, 0],
    ...(start === undefined ? [] : [[...name(OWN.START), KIND.FUNCTION, ...start.content]]),
  ];
}

/** @param {Uint8Array} bytes @returns {boolean} whether they are a module that imports or has shared memory */
export function hasSharedMemory(bytes) {
  if (!HEAD.every((byte, at) => bytes[at] === byte)) return false;
  try {
    return counted(sectionsOf(bytes).sections).isShared;
  } catch {
    // The engine says what is wrong with it.
    return false;
  }
}

/**
 * Translates a module with shared memory, in which the engine has found nothing wrong.
 * @param {Uint8Array} bytes
 * @returns {Uint8Array}
 * @throws {SyntaxError} for what isn't known, with its name
 */
export function translated(bytes) {
  const { sections, custom } = sectionsOf(bytes);
  const { tables, most } = counted(sections);
  const types = readerOf(sections.get(ID.TYPE)).number();
  const code = sections.get(ID.CODE);
  const made = new EngineMap([...sections].map(([id, { content }]) => [id, content]));
  made.set(ID.TYPE, extended(sections.get(ID.TYPE), SLOT_TYPES.map(typeBytes)));
  made.set(ID.TABLE, extended(sections.get(ID.TABLE), [[0x70, 0, ...number(SLOTS.length)]]));
  made.set(ID.EXPORT, extended(sections.get(ID.EXPORT), exported(sections, tables)));
  made.delete(ID.START);
  if (code !== undefined) made.set(ID.CODE, new Code(code.at, tables, types).translated(code.content));
  const writer = new ByteWriter();
  writer.add([...HEAD]);
  for (const id of ORDER) {
    const content = made.get(id);
    if (content !== undefined) writer.addSized(content, [id]);
  }
  const data = new Bytes([...name(DATA), ...number(most), ...vector(dataOf(sections.get(ID.DATA)))]);
  for (const each of [...custom, data]) writer.addSized(each, [ID.CUSTOM]);
  return writer.taken().slice();
}
