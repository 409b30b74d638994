// What an agent has told about its operations of an object in a run, in shared memory. The agent writes it, and the
// referee reads it at the run's end.

import { uncurried } from "../primordials.mjs";

const { Int32Array, SharedArrayBuffer } = globalThis;
const bufferFrom = Buffer.from;
const encode = uncurried(TextEncoder.prototype.encodeInto);
const encoder = new TextEncoder();

const COUNT = 0;
const USED = 1;
const HEAD = 2;

// Of each mark: which call begins, or -1 if one ends; how many events of the log come before it; its text's length.
const CALL = 0;
const EVENT = 1;
const BYTES = 2;
const WORDS_EACH = 3;

const ENDS = -1;

const MOST_MARKS = 8_000;
const TEXT_BYTES = 2 ** 17;
const TEXT_FROM = 4 * (HEAD + MOST_MARKS * WORDS_EACH);

/** @typedef {{ call: number, event: number } | { outcome: string, event: number }} OperationMark */

export class OperationList {
  /** @returns {SharedArrayBuffer} */
  static memory() {
    return new SharedArrayBuffer(TEXT_FROM + TEXT_BYTES);
  }

  /** @param {SharedArrayBuffer} memory of one agent */
  constructor(memory) {
    this.words = new Int32Array(memory, 0, TEXT_FROM / 4);
    this.text = bufferFrom(memory, TEXT_FROM);
  }

  /** A run begins. */
  begin() {
    this.words[COUNT] = 0;
    this.words[USED] = 0;
  }

  /** @returns {OperationMark[]} in their order */
  read() {
    const { text, words } = this;
    let from = 0;
    return Array.from({ length: words[COUNT] }, (_, at) => {
      const word = HEAD + at * WORDS_EACH;
      const [call, event, bytes] = words.subarray(word, word + WORDS_EACH);
      if (call !== ENDS) return { call, event };
      from += bytes;
      return { outcome: text.toString("utf8", from - bytes, from), event };
    });
  }

  // The agent's part.

  /** @param {number} call that begins @param {number} event @returns {boolean} whether there was room */
  begins(call, event) {
    return this.#note(call, event, 0);
  }

  /** @param {string} outcome of the call that ends @param {number} event @returns {boolean} as above */
  ends(outcome, event) {
    const { text, words } = this;
    const used = words[USED];
    // A character takes three bytes at most.
    if (used + 3 * outcome.length > TEXT_BYTES) return false;
    const { written } = outcome === "" ? { written: 0 } : encode(encoder, outcome, text.subarray(used));
    words[USED] = used + written;
    return this.#note(ENDS, event, written);
  }

  /** @param {number} call @param {number} event @param {number} bytes */
  #note(call, event, bytes) {
    const { words } = this;
    if (words[COUNT] === MOST_MARKS) return false;
    const word = HEAD + words[COUNT] * WORDS_EACH;
    words[word + CALL] = call;
    words[word + EVENT] = event;
    words[word + BYTES] = bytes;
    words[COUNT] += 1;
    return true;
  }
}
