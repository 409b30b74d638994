// What each thread of a program is, what keeps it alive while its event loop has nothing to do, and how it has ended:
// texts of each thread, in shared memory. The thread writes them. The code that reports the run reads them.

import { uncurried } from "../primordials.mjs";

const { Int32Array, SharedArrayBuffer } = globalThis;
const encode = uncurried(TextEncoder.prototype.encodeInto);
const encoder = new TextEncoder();
const bufferFrom = Buffer.from;

// What keeps it, what it is, how it has ended, and which top-level await it has begun last.
const KEPT = 0;
const NAME = 1;
const END = 2;
const AWAIT = 3;
const TEXTS = 4;

const TEXT_BYTES = 4_096;
const HEAD = 4 * TEXTS;
const BYTES = HEAD + TEXTS * TEXT_BYTES;

export class ThreadTexts {
  /** @returns {SharedArrayBuffer} */
  static memory() {
    return new SharedArrayBuffer(BYTES);
  }

  /** @param {SharedArrayBuffer} memory of one thread */
  constructor(memory) {
    this.lengths = new Int32Array(memory, 0, TEXTS);
    this.texts = Array.from({ length: TEXTS }, (_, at) => bufferFrom(memory, HEAD + at * TEXT_BYTES, TEXT_BYTES));
  }

  /** @param {string} text */
  write(text) {
    this.#write(KEPT, text);
  }

  /** @param {string} name what the thread is: its module, and where it was started */
  setName(name) {
    this.#write(NAME, name);
  }

  /** @returns {string} nothing if it hasn't begun in this run */
  name() {
    return this.#read(NAME);
  }

  /** @returns {string} what was written last in this run; nothing if it never rested */
  read() {
    return this.#read(KEPT);
  }

  /** @param {string} text how it has ended, if by an error or an exit code */
  setEnd(text) {
    this.#write(END, text);
  }

  /** @returns {string} nothing if it hasn't ended so */
  end() {
    return this.#read(END);
  }

  /** @param {string} place of the top-level await that begins */
  setAwait(place) {
    this.#write(AWAIT, place);
  }

  /** @returns {string} nothing if none has begun, or it wasn't noted */
  awaited() {
    return this.#read(AWAIT);
  }

  /** A run begins. */
  clear() {
    this.lengths.fill(0);
  }

  /** @param {number} which @param {string} text */
  #write(which, text) {
    this.lengths[which] = encode(encoder, text, this.texts[which]).written;
  }

  /** @param {number} which */
  #read(which) {
    return this.texts[which].toString("utf8", 0, this.lengths[which]);
  }
}
