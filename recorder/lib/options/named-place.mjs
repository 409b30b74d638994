// What a name in a module's `setup` stands for: an element or an array, in one of the forms that `names` takes.

import { KINDS, SCRIPT_KINDS, SIZES } from "../../script/kinds.mjs";
import { meant } from "./nearest.mjs";
import { Refused } from "./refused.mjs";

/** @typedef {{ kind: number, block: number, offset: number, length: number }} ViewPlace of a name: a view */

/** A name stands for an element or an array that the buffers don't have. */
export class NoSuchPlace extends Refused {}

const MEMBERS = ["kind", "buffer", "offset", "length"];

/** @type {(value: unknown, least: number, most: number) => value is number} */
export const isIntegerWithin = (value, least, most) =>
  typeof value === "number" && Number.isInteger(value) && value >= least && value <= most;

/**
 * @param {string} name
 * @param {unknown} kindName
 * @returns {number}
 */
function kindOf(name, kindName) {
  const kind = SCRIPT_KINDS.indexOf(/** @type {string} */ (kindName));
  if (kind >= 0) return kind;
  const why = KINDS.includes(/** @type {string} */ (kindName))
    ? "no script can have such a view, so leave this name out"
    : meant(`${kindName}`, [...SCRIPT_KINDS]);
  throw new Refused(`\`names\` gives ${name} the kind ${kindName}: ${why}`);
}

/**
 * @param {string} name
 * @param {unknown} block
 * @param {number[]} lengths of the blocks
 * @returns {number}
 */
function blockOf(name, block, lengths) {
  const last = lengths.length - 1;
  if (isIntegerWithin(block, 0, last)) return block;
  throw new NoSuchPlace(`\`names\` puts ${name} on buffer ${block}: there is no such buffer, only 0 to ${last}`);
}

/**
 * One element, or a whole array: `[kind, buffer, index]` or `[kind, buffer]`.
 * @param {string} name
 * @param {unknown[]} parts
 * @param {number[]} lengths of the blocks
 * @returns {ViewPlace}
 */
function placeOfParts(name, [kindName, buffer, ...indices], lengths) {
  const kind = kindOf(name, kindName);
  const block = blockOf(name, buffer, lengths);
  const elements = Math.floor(lengths[block] / SIZES[kind]);
  if (indices.length === 0) return { kind, block, offset: 0, length: elements };
  const [index] = indices;
  if (isIntegerWithin(index, 0, elements - 1)) return { kind, block, offset: index * SIZES[kind], length: 1 };
  throw new NoSuchPlace(`\`names\` puts ${name} at index ${index}: buffer ${block} has ${elements} elements of kind ` +
    `${kindName}, counted from 0`);
}

/**
 * A part of a buffer: `{ kind, buffer, offset, length }`, as the constructor of a typed array takes them.
 * @param {string} name
 * @param {Partial<Record<string, unknown>>} given
 * @param {number[]} lengths of the blocks
 * @returns {ViewPlace}
 */
function placeOfMembers(name, given, lengths) {
  const other = Object.keys(given).find((member) => !MEMBERS.includes(member));
  if (other !== undefined) throw new Refused(`\`names\` gives ${name} a member ${other}: ${meant(other, MEMBERS)}`);
  const missing = ["kind", "buffer"].find((member) => given[member] === undefined);
  if (missing !== undefined) throw new Refused(`\`names\` gives ${name} no \`${missing}\``);
  const kind = kindOf(name, given.kind);
  const block = blockOf(name, given.buffer, lengths);
  const { offset = 0 } = given;
  const [size, bytes] = [SIZES[kind], lengths[block]];
  if (!isIntegerWithin(offset, 0, bytes - size)) {
    throw new NoSuchPlace(`\`names\` puts ${name} at offset ${offset}: buffer ${block} has ${bytes} bytes, and an ` +
      `element of kind ${given.kind} takes ${size}`);
  }
  if (offset % size !== 0) {
    throw new Refused(`\`names\` puts ${name} at offset ${offset}: give a multiple of ${size}, since an element of ` +
      `kind ${given.kind} takes ${size} bytes`);
  }
  const most = Math.floor((bytes - offset) / size);
  const { length = most } = given;
  if (isIntegerWithin(length, 1, most)) return { kind, block, offset, length };
  throw new NoSuchPlace(`\`names\` gives ${name} the length ${length}: buffer ${block} has room for 1 to ${most} ` +
    `elements of kind ${given.kind} from offset ${offset} on`);
}

/**
 * What a name stands for.
 * @param {string} name
 * @param {unknown} value
 * @param {number[]} lengths of the blocks
 * @param {string} example of names, for a message
 * @returns {ViewPlace}
 * @throws {Refused}
 */
export function placeOf(name, value, lengths, example) {
  if (typeof value === "number") return placeOfParts(name, ["Int32", 0, value], lengths);
  if (Array.isArray(value) && (value.length === 2 || value.length === 3)) return placeOfParts(name, value, lengths);
  if (typeof value === "object" && value !== null && !Array.isArray(value)) {
    return placeOfMembers(name, /** @type {Partial<Record<string, unknown>>} */ (value), lengths);
  }
  throw new Refused(`\`names\` gives ${name} no place: write [kind, buffer, index] for an element, [kind, buffer] ` +
    "for a whole array, { kind, buffer, offset, length } for a part of a buffer, or an index alone, which is that of " +
    `an Int32Array on buffer 0, as in ${example}`);
}
