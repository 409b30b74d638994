// The bytes at the end of a run: their hash, their beginnings in hexadecimal digits, and what has a name by its name.

import { createHash } from "node:crypto";
import { KINDS, SIZES } from "../../../script/kinds.mjs";
import { elementText } from "../../../script/values.mjs";

/** @typedef {import("../../options/names.mjs").NamedView} NamedView */

/** @typedef {{ digest: string, shown: string[] }} MoreBytes those of blocks that no script can have */

/**
 * @typedef {object} FinalState
 * @property {string} hash of how the run ended and of all bytes
 * @property {string[]} shown the beginnings of each buffer in hexadecimal digits
 * @property {string | null} named the values of all that has a name, and the beginnings too if other bytes aren't zero;
 * null if nothing has a name
 */

const SHOWN_DIGITS = 48;

// So many blocks are shown beside those that a script can have.
const MOST_MORE = 5;

// So many elements of an array are named, and so many characters of all.
const MOST_ELEMENTS = 8;
const MOST_CHARACTERS = 240;

/** How many states are remembered: runs mostly end in few. */
const MOST_REMEMBERED = 256;

/** A text of so many characters is remembered itself. */
const MOST_KEY = 2_048;

/** @param {string} text @returns {string} */
const hashOf = (text) => createHash("sha256").update(text).digest("base64");

/** @param {string} text @param {number} most */
const cut = (text, most) => (text.length > most ? `${text.slice(0, most)}…` : text);

/**
 * The values of an array or a word.
 * @param {NamedView} name
 * @param {string[]} bytes of each buffer, in hexadecimal digits
 */
function namedText({ name, kind, block, offset, length }, bytes) {
  const shown = Math.min(length, MOST_ELEMENTS);
  const size = SIZES[kind];
  const own = Uint8Array.from(Buffer.from(bytes[block].slice(2 * offset, 2 * (offset + shown * size)), "hex"));
  const values = Array.from({ length: shown }, (_, at) => elementText(KINDS[kind], own, at * size));
  if (length === 1) return `${name} ${values[0]}`;
  return `${name} [${values.join(", ")}${length > shown ? ", …" : ""}]`;
}

/**
 * @param {string[]} shown the beginnings of each buffer in hexadecimal digits
 * @returns {string} all of them on one line; a dash for an empty one
 */
export const bytesText = (shown) => shown.map((hex) => (hex === "" ? "-" : hex)).join(" | ");

/**
 * Whether any byte that no name has isn't zero.
 * @param {string[]} bytes of each buffer, in hexadecimal digits
 * @param {NamedView[]} names
 * @returns {boolean}
 */
function hasMore(bytes, names) {
  return bytes.some((hex, block) => {
    const rest = Buffer.from(hex, "hex");
    for (const { block: own, offset, length, kind } of names) {
      if (own === block) rest.fill(0, offset, offset + length * SIZES[kind]);
    }
    return rest.some((byte) => byte !== 0);
  });
}

/**
 * The bytes of blocks that no script can have.
 * @param {Uint8Array[]} blocks
 * @returns {MoreBytes}
 */
export function moreBytesOf(blocks) {
  const hash = createHash("sha256");
  for (const bytes of blocks) hash.update(`${bytes.length} `).update(bytes);
  const shown = blocks.slice(0, MOST_MORE).map((bytes) => {
    const hex = Buffer.from(bytes.subarray(0, SHOWN_DIGITS)).toString("hex");
    return cut(hex, SHOWN_DIGITS);
  });
  return { digest: hash.digest("base64"), shown: blocks.length > MOST_MORE ? [...shown, "…"] : shown };
}

export class FinalStates {
  /** @param {NamedView[]} names of words and arrays */
  constructor(names) {
    this.names = names;
    /** @type {Map<string, FinalState>} by how the run ended and all bytes, or by their hash if these are many */
    this.known = new Map();
  }

  /**
   * @param {string} ending
   * @param {string[]} bytes of each buffer, in hexadecimal digits
   * @param {MoreBytes} [more]
   * @returns {FinalState}
   */
  of(ending, bytes, more) {
    const all = more === undefined ? bytes : [...bytes, more.digest];
    const text = `${ending} ${all.join(" ")}`;
    const key = text.length > MOST_KEY ? hashOf(text) : text;
    const known = this.known.get(key);
    if (known !== undefined) return known;
    const shown = [...bytes.map((hex) => cut(hex, SHOWN_DIGITS)), ...(more?.shown ?? [])];
    const state = { hash: hashOf(text), shown, named: this.#named(bytes, shown) };
    if (this.known.size === MOST_REMEMBERED) this.known.clear();
    this.known.set(key, state);
    return state;
  }

  /** @param {string[]} bytes @param {string[]} shown their beginnings */
  #named(bytes, shown) {
    const { names } = this;
    if (names.length === 0) return null;
    const text = cut(names.map((name) => namedText(name, bytes)).join(", "), MOST_CHARACTERS);
    return hasMore(bytes, names) ? `${text}; all bytes: ${bytesText(shown)}` : text;
  }
}
