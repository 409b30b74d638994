// Ordinary writes as a script has them: stores by the agent that wrote, before its next call. They are taken when the
// agent makes that call, and only what has changed is taken.
//
// A few elements are stored as they were written, many as the largest whole aligned elements. If there are more stores
// than a script can ever have, those of bytes that no call touches are left out. What the calls return doesn't depend
// on them. If a call touches such a byte after all, what was last written there is stored again.

import { KINDS, SIZES } from "../../script/kinds.mjs";
import { SCRIPT_LIMITS } from "../../script/limits.mjs";
import { WORD } from "./layout.mjs";

const { Int32Array, Uint8Array, SharedArrayBuffer } = globalThis;

// No script can have more of them, even if each of its calls is such a store of eight bytes that were written singly.
const ROOM = SCRIPT_LIMITS.agents * SCRIPT_LIMITS.calls * 8;

// Up to so many bytes that were written together are stored as the elements that were written.
const FEW_BYTES = 64;

/** How many words a store has. */
export const STORE_WORDS = 8;

const EACH = STORE_WORDS;
const POSITION = 0;
const AGENT = 1;
const BLOCK = 2;
const BYTE = 3;
const KIND = 4;
const VALUE = 6;

// The word IS_THINNED.
const ALL = 0;
const THINNED = 1;
const LOST = 2;

const UINT8 = KINDS.indexOf("Uint8");
const INT32 = KINDS.indexOf("Int32");

/** @type {Readonly<Record<number, number>>} the unsigned kinds, by how many bytes they have */
const UNSIGNED = Object.freeze({ 1: UINT8, 2: KINDS.indexOf("Uint16"), 4: KINDS.indexOf("Uint32"),
  8: KINDS.indexOf("BigUint64") });

/** The kind of a store that writes the bytes of an element of each kind. A float is stored by its bytes. */
export const STORED = Object.freeze(KINDS.map((name, kind) =>
  name.startsWith("Float") || name === "Uint8Clamped" ? UNSIGNED[SIZES[kind]] : kind));

/**
 * @typedef {object} Store
 * @property {number} position in the log: it is done before the event there
 * @property {number} agent
 * @property {number} block
 * @property {number} byte
 * @property {number} kind of the element as the code wrote it; the script's store is of the kind `STORED` has for it
 * @property {Uint8Array} bytes that it writes
 */

export class Stores {
  /** @param {number[]} lengths of the blocks */
  static memory(lengths) {
    const bytes = lengths.reduce((sum, length) => sum + length, 0);
    return {
      entries: new SharedArrayBuffer(ROOM * EACH * 4),
      touched: new SharedArrayBuffer(bytes * 4),
      dropped: new SharedArrayBuffer(bytes * 4),
    };
  }

  /**
   * @param {ReturnType<typeof Stores.memory>} memory
   * @param {Int32Array} words of the board
   * @param {import("./recorded-memory.mjs").RecordedMemory} buffers
   */
  constructor(memory, words, buffers) {
    this.entries = new Int32Array(memory.entries);
    this.bytes = new Uint8Array(memory.entries);
    /** For each byte, the run in which a call touched it. */
    this.touched = new Int32Array(memory.touched);
    /** For each byte of a thinned list, the position of a store that was left out, and whose it is; else 0. */
    this.dropped = new Int32Array(memory.dropped);
    this.words = words;
    this.buffers = buffers;
    this.run = 0;
    this.firsts = [];
    let first = 0;
    for (let block = 0; block < buffers.real.length; block += 1) {
      this.firsts[block] = first;
      first += buffers.real[block].length;
    }
  }

  /** A run begins. */
  begin() {
    this.words[WORD.STORES] = 0;
    this.words[WORD.IS_THINNED] = ALL;
  }

  /** An agent begins its part in a run. */
  join() {
    this.run = this.words[WORD.RUN];
  }

  /**
   * Takes what an access of this agent has changed.
   * @param {number} agent
   * @param {number} position
   * @param {number} block
   * @param {number} from
   * @param {number} to
   * @param {number} kind of the view that it was written by, or a greater number if that is no typed array
   * @returns {boolean} whether it has changed anything
   */
  recordWrites(agent, position, block, from, to, kind) {
    let hasChanged = false;
    if (kind < KINDS.length && to - from <= FEW_BYTES) {
      for (let byte = from; byte < to; byte += SIZES[kind]) {
        if (this.#take(agent, position, block, byte, kind)) hasChanged = true;
      }
      return hasChanged;
    }
    for (let byte = from; byte < to;) {
      const size = largestAt(byte, to);
      const stored = STORED[kind] === UNSIGNED[size] ? kind : UNSIGNED[size];
      if (this.#take(agent, position, block, byte, stored)) hasChanged = true;
      byte += size;
    }
    return hasChanged;
  }

  /**
   * Takes the same of an access to a block that no script can have as it is. What is longer than a block of a script,
   * or is written when the stores are lost, is known afterwards, but has no stores.
   * @param {number} agent
   * @param {number} position
   * @param {number} block
   * @param {number} from
   * @param {number} to
   * @param {number} kind
   * @returns {boolean} whether it has changed anything
   */
  takeWrittenInMore(agent, position, block, from, to, kind) {
    if (to - from > SCRIPT_LIMITS.bytes) this.words[WORD.IS_THINNED] = LOST;
    if (this.isLost()) return this.buffers.syncShadow(block, from, to);
    return this.recordWrites(agent, position, block, from, to, kind);
  }

  /**
   * Takes all that has changed in a block: whole words, and else bytes.
   * @param {number} agent
   * @param {number} position
   * @param {number} block
   */
  takeChanged(agent, position, block) {
    const { length } = this.buffers.real[block];
    const whole = length - (length % 4);
    for (let byte = 0; byte < whole; byte += 4) this.#take(agent, position, block, byte, INT32);
    for (let byte = whole; byte < length; byte += 1) this.#take(agent, position, block, byte, UINT8);
  }

  /**
   * A call is about to touch some bytes.
   * @param {number} block
   * @param {number} from
   * @param {number} to
   */
  touch(block, from, to) {
    const { touched, dropped, words } = this;
    // For other blocks, either all stores are there or they are lost.
    if (block >= this.firsts.length) return;
    for (let byte = from; byte < to; byte += 1) {
      const place = this.firsts[block] + byte;
      if (touched[place] === this.run) continue;
      touched[place] = this.run;
      if (words[WORD.IS_THINNED] === ALL || dropped[place] === 0) continue;
      const left = dropped[place] - 1;
      this.#push(left & 15, left >> 4, block, byte, UINT8);
    }
  }

  /** @returns {boolean} whether all stores are there */
  isWhole() {
    return this.words[WORD.IS_THINNED] === ALL;
  }

  /** @returns {boolean} whether some are lost that calls may depend on */
  isLost() {
    return this.words[WORD.IS_THINNED] === LOST;
  }

  /** @returns {Store[]} in the order in which they are done; they hold until the next run begins */
  list() {
    return listed(this.entries, this.count);
  }

  /** @returns {number} how many there are */
  get count() {
    return this.words[WORD.STORES];
  }

  /** @param {Int32Array} into which as many are copied as fit */
  copyTo(into) {
    into.set(this.entries.subarray(0, into.length));
  }

  /**
   * Takes one element, if it has changed.
   * @param {number} agent
   * @param {number} position
   * @param {number} block
   * @param {number} byte
   * @param {number} kind
   * @returns {boolean} whether it has
   */
  #take(agent, position, block, byte, kind) {
    const real = this.buffers.real[block];
    const known = this.buffers.shadow[block];
    const to = byte + SIZES[kind];
    let at = byte;
    while (at < to && real[at] === known[at]) at += 1;
    if (at === to) return false;
    this.buffers.syncShadow(block, byte, to);
    if (this.words[WORD.STORES] === ROOM) this.#thin();
    if (this.words[WORD.IS_THINNED] !== ALL && !this.#isTouched(block, byte, to)) {
      this.#drop(agent, position, block, byte, to);
    } else {
      this.#push(agent, position, block, byte, kind);
    }
    return true;
  }

  /** @param {number} agent @param {number} position @param {number} block @param {number} byte @param {number} kind */
  #push(agent, position, block, byte, kind) {
    const { entries, bytes, words } = this;
    if (words[WORD.STORES] === ROOM) {
      words[WORD.IS_THINNED] = LOST;
      return;
    }
    const at = words[WORD.STORES] * EACH;
    entries[at + POSITION] = position;
    entries[at + AGENT] = agent;
    entries[at + BLOCK] = block;
    entries[at + BYTE] = byte;
    entries[at + KIND] = kind;
    const known = this.buffers.shadow[block];
    const value = (at + VALUE) * 4;
    for (let more = 0; more < SIZES[kind]; more += 1) bytes[value + more] = known[byte + more];
    words[WORD.STORES] += 1;
  }

  /** @param {number} agent @param {number} position @param {number} block @param {number} from @param {number} to */
  #drop(agent, position, block, from, to) {
    // For other blocks nobody knows which bytes calls touch.
    if (block >= this.firsts.length) this.words[WORD.IS_THINNED] = LOST;
    for (let byte = from; byte < to; byte += 1) this.dropped[this.firsts[block] + byte] = ((position << 4) | agent) + 1;
  }

  /** Leaves out the stores of bytes that no call has touched yet. */
  #thin() {
    const { entries, words, dropped } = this;
    if (words[WORD.IS_THINNED] !== ALL) return;
    words[WORD.IS_THINNED] = THINNED;
    for (let place = 0; place < dropped.length; place += 1) dropped[place] = 0;
    let kept = 0;
    for (let number = 0; number < words[WORD.STORES]; number += 1) {
      const at = number * EACH;
      const block = entries[at + BLOCK];
      const byte = entries[at + BYTE];
      const to = byte + SIZES[entries[at + KIND]];
      if (!this.#isTouched(block, byte, to)) {
        this.#drop(entries[at + AGENT], entries[at + POSITION], block, byte, to);
        continue;
      }
      for (let word = 0; word < EACH; word += 1) entries[kept * EACH + word] = entries[at + word];
      kept += 1;
    }
    words[WORD.STORES] = kept;
  }

  /** @param {number} block @param {number} from @param {number} to */
  #isTouched(block, from, to) {
    for (let byte = from; byte < to; byte += 1) {
      if (this.touched[this.firsts[block] + byte] === this.run) return true;
    }
    return false;
  }
}

/** Copies of a run's stores, all of them. */
export class CopiedStores {
  /** @param {Int32Array} entries */
  constructor(entries) {
    this.entries = entries;
  }

  /** @returns {Store[]} in the order in which they are done */
  list() {
    return listed(this.entries, this.entries.length / EACH);
  }

  /** @returns {boolean} */
  isWhole() {
    return true;
  }

  /** @returns {boolean} */
  isLost() {
    return false;
  }
}

/**
 * @param {Int32Array} entries
 * @param {number} count how many stores they are
 * @returns {Store[]} in the order in which they are done
 */
function listed(entries, count) {
  const bytes = new Uint8Array(entries.buffer, entries.byteOffset);
  const stores = [];
  let isOrdered = true;
  let last = 0;
  for (let at = 0; at < count * EACH; at += EACH) {
    const position = entries[at + POSITION];
    const kind = entries[at + KIND];
    const value = (at + VALUE) * 4;
    stores.push({ position, agent: entries[at + AGENT], block: entries[at + BLOCK], byte: entries[at + BYTE], kind,
      bytes: bytes.subarray(value, value + SIZES[kind]) });
    isOrdered &&= last <= position;
    last = position;
  }
  return isOrdered ? stores : stores.sort((one, other) => one.position - other.position);
}

/**
 * How many bytes the largest aligned element has that begins at a byte and ends at another one at the latest.
 * @param {number} byte
 * @param {number} to
 */
function largestAt(byte, to) {
  let size = 8;
  while (byte % size !== 0 || byte + size > to) size /= 2;
  return size;
}
