// What pilot runs have shown about a program's memory. The program makes it anew in each run, and the number of a block
// depends on the seed. So memory is known by a name that is the same in all runs: which thread made it, where, and how
// many were made there before. Nothing is known about memory without a name, or about what was added to one that grows.

import { FLAG } from "./log.mjs";
import { KnownPlaces, PLACES } from "./known-places.mjs";

const { Int32Array, SharedArrayBuffer } = globalThis;
const { imul } = Math;

// The words: how many names there are, how many places these have, then each name, then each block of the run.
const COUNT = 0;
const USED = 1;
const NAMES = 2;
const NAME_WORDS = 4;
const MOST_NAMES = 1_024;
const BLOCKS = NAMES + NAME_WORDS * MOST_NAMES;
const BLOCK_WORDS = 2;
const MOST_BLOCKS = 4_096;

// The words of a name: two numbers of its text, the first of its places, and how many it has.
const FIRST = 2;
const LENGTH = 3;

const SEEDS = [0x811c9dc5, 0x2545f491];

/** @param {string} text @param {number} seed @returns {number} one that other texts hardly ever have */
function numberOf(text, seed) {
  let number = seed;
  for (let at = 0; at < text.length; at += 1) number = imul(number ^ text.charCodeAt(at), 0x01000193);
  return number | 0;
}

export class NamedPlaces extends KnownPlaces {
  /** @returns {SharedArrayBuffer} for the names */
  static names() {
    return new SharedArrayBuffer((BLOCKS + BLOCK_WORDS * MOST_BLOCKS) * 4);
  }

  /** @param {SharedArrayBuffer} memory of `KnownPlaces` @param {SharedArrayBuffer} names */
  constructor(memory, names) {
    super(memory);
    this.words = new Int32Array(names);
  }

  /** Nothing is known: another program is run. */
  forget() {
    this.words.fill(0);
    this.known.fill(0);
  }

  /** A run begins, in which there are no blocks yet. */
  begin() {
    this.words.fill(0, BLOCKS);
  }

  /**
   * A block begins.
   * @param {number} block
   * @param {string} name of its memory
   * @param {number} length in bytes
   * @param {boolean} learns whether a name that isn't known yet is kept
   */
  name(block, name, length, learns) {
    if (block >= MOST_BLOCKS || (!learns && this.words[COUNT] === 0)) return;
    const at = this.#found(name, learns ? length : 0);
    if (at === undefined) return;
    this.words[BLOCKS + BLOCK_WORDS * block] = this.words[at + FIRST];
    this.words[BLOCKS + BLOCK_WORDS * block + 1] = this.words[at + LENGTH];
  }

  /**
   * @param {number} block
   * @param {number} byte
   * @returns {number} the number of the place; `PLACES` if nothing is known about it
   */
  placeOf(block, byte) {
    const at = BLOCKS + BLOCK_WORDS * block;
    return byte >= 0 && byte < this.words[at + 1] ? this.words[at] + byte : PLACES;
  }

  /** @param {number} how what a call does, as flags @returns {boolean} whether it can be private: all except waits */
  canBePrivate(how) {
    return (how & FLAG.WAITERS) === 0 || how === FLAG.WAITERS;
  }

  /**
   * @param {string} name
   * @param {number} length how many places it gets if it isn't known yet; 0: none
   * @returns {number | undefined} where its words are
   */
  #found(name, length) {
    const { words } = this;
    const [one, other] = [numberOf(name, SEEDS[0]), numberOf(name, SEEDS[1])];
    const end = NAMES + NAME_WORDS * words[COUNT];
    for (let at = NAMES; at < end; at += NAME_WORDS) if (words[at] === one && words[at + 1] === other) return at;
    if (length === 0 || words[COUNT] === MOST_NAMES || words[USED] + length > PLACES) return undefined;
    words.set([one, other, words[USED], length], end);
    words[USED] += length;
    words[COUNT] += 1;
    return end;
  }
}
