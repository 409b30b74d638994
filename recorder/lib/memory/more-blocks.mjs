// The blocks of a program that no script can have as they are: those after the third, those that are longer than a
// script's blocks, and those that grow. Their number has no small limit. The bytes that are known, the bytes with which
// they began, and where their memory was made, are in memory that grows as they come.

import { SCRIPT_LIMITS } from "../../script/limits.mjs";
import { uncurried } from "../primordials.mjs";

const { Int32Array, SharedArrayBuffer, Uint8Array } = globalThis;
const setBytes = uncurried(Uint8Array.prototype.set);
/** @type {{ new (bytes: number, options: { maxByteLength: number }): Growing }} */
const EngineShared = /** @type {any} */ (SharedArrayBuffer);
const encode = uncurried(TextEncoder.prototype.encodeInto);
const encoder = new TextEncoder();
const bufferFrom = Buffer.from;
const { ceil, max, min } = Math;

/** @typedef {SharedArrayBuffer & { grow(bytes: number): void, maxByteLength: number }} Growing */

/**
 * @typedef {object} BlockStart how a block began
 * @property {Uint8Array} bytes that it had
 * @property {number} agent that had made and filled it
 * @property {number} position in the log at which it became a block
 */

/** The number of the first one. */
export const FIRST_MORE = SCRIPT_LIMITS.blocks;

/** How many there can be, and how many bytes all of them can have together. */
const MOST = 2 ** 20;
const MOST_BYTES = 2 ** 31 - 2 ** 16;

/** The bytes with which a longer one began aren't kept. */
const MOST_START = 2 ** 26;

const NAME_BYTES = 1_024;
const PAGE = 2 ** 16;

// The words of all, and those of each block behind them.
const COUNT = 0;
const USED = 1;
const HEAD = 2;
const EACH = 9;
const FIRST = 0;
const LENGTH = 1;
const MOST_LENGTH = 2;
const NAME = 3;
const NAME_LENGTH = 4;
const START = 5;
const START_LENGTH = 6;
const AGENT = 7;
const POSITION = 8;

/** @param {number} bytes @param {number} to a power of two @returns {number} */
const rounded = (bytes, to) => ceil(bytes / to) * to;

/** @param {Growing} memory @param {number} bytes that it is to have at least */
function reserve(memory, bytes) {
  if (memory.byteLength >= bytes) return;
  memory.grow(min(max(rounded(bytes, PAGE), 2 * memory.byteLength), memory.maxByteLength));
}

export class MoreBlocks {
  /** @returns {{ words: Growing, bytes: Growing }} */
  static memory() {
    return {
      words: new EngineShared(PAGE, { maxByteLength: (HEAD + MOST * EACH) * 4 }),
      bytes: new EngineShared(0, { maxByteLength: MOST_BYTES }),
    };
  }

  /** @param {ReturnType<typeof MoreBlocks.memory>} memory */
  constructor(memory) {
    this.memory = memory;
    // It grows with its memory.
    this.words = new Int32Array(memory.words);
  }

  /** @returns {number} how many there are */
  get count() {
    return this.words[COUNT];
  }

  /** A run begins, in which there are none. */
  begin() {
    const { words } = this;
    words[COUNT] = 0;
    words[USED] = 0;
  }

  /**
   * Adds a block. Its known bytes may be those of an earlier run, until its own are taken over.
   * @param {number} length in bytes
   * @param {number} mostLength how long it can get
   * @param {string} place where its memory was made; empty: it isn't known
   * @returns {number} its number; -1: there is no room for it
   */
  add(length, mostLength, place) {
    const { words, memory } = this;
    const at = HEAD + words[COUNT] * EACH;
    const first = words[USED];
    const name = first + rounded(mostLength, 8);
    const start = name + rounded(min(place.length * 3, NAME_BYTES), 8);
    const end = start + (length > MOST_START ? 0 : rounded(length, 8));
    if (words[COUNT] === MOST || end > MOST_BYTES || !isReserved(memory, (at + EACH) * 4, end)) return -1;
    words[at + FIRST] = first;
    words[at + LENGTH] = length;
    words[at + MOST_LENGTH] = mostLength;
    words[at + NAME] = name;
    words[at + NAME_LENGTH] = encode(encoder, place, new Uint8Array(memory.bytes, name, start - name)).written;
    words[at + START] = start;
    words[at + START_LENGTH] = end === start ? 0 : length;
    words[USED] = end;
    words[COUNT] += 1;
    return FIRST_MORE + words[COUNT] - 1;
  }

  /**
   * A block begins with the bytes that are known now.
   * @param {number} block its number
   * @param {number} agent that has made and filled it
   * @param {number} position in the log
   */
  begins(block, agent, position) {
    const { words, memory } = this;
    const at = this.#at(block);
    const length = words[at + START_LENGTH];
    const start = new Uint8Array(memory.bytes, words[at + START], length);
    setBytes(start, new Uint8Array(memory.bytes, words[at + FIRST], length));
    words[at + AGENT] = agent;
    words[at + POSITION] = position;
  }

  /**
   * @param {number} block its number
   * @returns {BlockStart | undefined} undefined: it isn't known for so long a block
   */
  start(block) {
    const { words, memory } = this;
    const at = this.#at(block);
    if (words[at + START_LENGTH] === 0) return undefined;
    const bytes = new Uint8Array(memory.bytes, words[at + START], words[at + START_LENGTH]);
    return { bytes, agent: words[at + AGENT], position: words[at + POSITION] };
  }

  /** @param {number} block its number @returns {Uint8Array} the known bytes */
  known(block) {
    const at = this.#at(block);
    return new Uint8Array(this.memory.bytes, this.words[at + FIRST], this.words[at + LENGTH]);
  }

  /** @param {number} block its number @returns {Uint8Array} the same, with all bytes that it can get */
  whole(block) {
    const at = this.#at(block);
    return new Uint8Array(this.memory.bytes, this.words[at + FIRST], this.words[at + MOST_LENGTH]);
  }

  /** @param {number} block that has grown, by bytes that are zero @param {number} length */
  grew(block, length) {
    const at = this.#at(block) + LENGTH;
    this.whole(block).fill(0, this.words[at], length);
    this.words[at] = length;
  }

  /** @param {number} block its number @returns {number} how long it is */
  length(block) {
    return this.words[this.#at(block) + LENGTH];
  }

  /** @param {number} block its number @returns {number} how long it can get */
  mostLength(block) {
    return this.words[this.#at(block) + MOST_LENGTH];
  }

  /** @param {number} block its number @returns {boolean} whether it could be longer than it was at first */
  grows(block) {
    const at = this.#at(block);
    return this.words[at + MOST_LENGTH] > this.words[at + START_LENGTH];
  }

  /** @param {number} block its number @returns {string} where its memory was made; empty: it isn't known */
  place(block) {
    const at = this.#at(block);
    return bufferFrom(this.memory.bytes, this.words[at + NAME], this.words[at + NAME_LENGTH]).toString("utf8");
  }

  /** @returns {number[]} the numbers of all */
  numbers() {
    const numbers = [];
    for (let at = 0; at < this.count; at += 1) numbers[at] = FIRST_MORE + at;
    return numbers;
  }

  /** @param {number} block */
  #at(block) {
    return HEAD + (block - FIRST_MORE) * EACH;
  }
}

/**
 * @param {ReturnType<typeof MoreBlocks.memory>} memory
 * @param {number} words how many bytes these are to have
 * @param {number} bytes how many the rest
 * @returns {boolean} false if the machine doesn't have so much
 */
function isReserved(memory, words, bytes) {
  try {
    reserve(memory.words, words);
    reserve(memory.bytes, bytes);
    return true;
  } catch {
    return false;
  }
}
