// Positions in the agents' code, as file, line and column. Each is written down once, in shared memory, and goes by its
// number.

import { apply, mapGet, mapSet, uncurried } from "../primordials.mjs";

const { Int32Array, Uint8Array, SharedArrayBuffer, Map: EngineMap } = globalThis;
const { subarray } = Uint8Array.prototype;
const encode = uncurried(TextEncoder.prototype.encodeInto);
const indexOf = uncurried(String.prototype.indexOf);
const slice = uncurried(String.prototype.slice);
const decode = uncurried(Buffer.prototype.toString);
const bufferFrom = Buffer.from;
const encoder = new TextEncoder();

// Room for thousands of positions; what isn't written to takes no memory.
const BYTES = 2 ** 20;

/** The number of a position that isn't known, or that there is no room for. */
export const UNKNOWN_SOURCE = 0;

// Before the text come how many of its bytes are used, and the position that the agent has marked.
const USED = 0;
const MARKED = 1;
const WORDS = 2;

// A position's number has the line's above the column's.
const COLUMNS = 2 ** 24;

export class Sources {
  /** @returns {SharedArrayBuffer} */
  static memory() {
    return new SharedArrayBuffer(BYTES);
  }

  /** @param {SharedArrayBuffer} memory of one agent */
  constructor(memory) {
    this.words = new Int32Array(memory, 0, WORDS);
    this.text = new Uint8Array(memory, WORDS * 4);
    /** @type {Map<string, Map<number, number>>} the numbers of each file's positions */
    this.files = new EngineMap();
    /** @type {Map<string, number>} the numbers of those that are written down, by their lines */
    this.lines = new EngineMap();
    this.count = 0;
    this.#syncShadow(bufferFrom(memory, WORDS * 4, this.words[USED]));
  }

  /**
   * Takes over what a worker before this one has written down.
   * @param {Buffer} written
   */
  #syncShadow(written) {
    const text = decode(written, "utf8");
    for (let at = 0; at < text.length;) {
      const next = indexOf(text, "\n", at) + 1;
      this.count += 1;
      mapSet(this.lines, slice(text, at, next), this.count);
      at = next;
    }
  }

  /**
   * The number of a position, which is written down if it is new.
   * @param {string | null} file
   * @param {number | null} row the number of its line
   * @param {number | null} column
   * @returns {number} `UNKNOWN_SOURCE` if there is no room for it
   */
  numberOf(file, row, column) {
    const numbers = this.#numbersOf(file);
    const position = (row ?? 0) * COLUMNS + (column ?? 0);
    const known = mapGet(numbers, position);
    if (known !== undefined) return known;
    const line = `${file}:${row}:${column}\n`;
    const number = mapGet(this.lines, line) ?? this.#added(line);
    if (number !== UNKNOWN_SOURCE) mapSet(numbers, position, number);
    return number;
  }

  /**
   * @param {number} number of the position at which the agent is when its run is over; `UNKNOWN_SOURCE`: none is known
   */
  mark(number) {
    this.words[MARKED] = number;
  }

  /** @returns {string} the position that is marked; empty if none is known */
  marked() {
    const number = this.words[MARKED];
    return number === UNKNOWN_SOURCE ? "" : this.list()[number] ?? "";
  }

  /** @param {string | null} file */
  #numbersOf(file) {
    const known = mapGet(this.files, file);
    if (known !== undefined) return known;
    const numbers = new EngineMap();
    mapSet(this.files, file, numbers);
    return numbers;
  }

  /**
   * Writes a position down.
   * @param {string} line
   * @returns {number} its number
   */
  #added(line) {
    const room = this.text.length - this.words[USED];
    // A character takes three bytes at most.
    if (line.length * 3 > room) return UNKNOWN_SOURCE;
    const { written } = encode(encoder, line, apply(subarray, this.text, [this.words[USED]]));
    this.words[USED] += written;
    this.count += 1;
    mapSet(this.lines, line, this.count);
    return this.count;
  }

  /** @returns {string[]} each position by its number; that of 0 is empty */
  list() {
    const text = Buffer.from(this.text.slice(0, this.words[USED])).toString("utf8");
    return ["", ...text.split("\n").slice(0, -1)];
  }
}
