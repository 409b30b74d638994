// What an agent did that nobody sees. The log has no place for it: each agent writes it as JSON to shared memory of its
// own, and the referee reads it.

import { uncurried } from "../primordials.mjs";

const { Int32Array, SharedArrayBuffer } = globalThis;
const { parse, stringify } = JSON;
const encode = uncurried(TextEncoder.prototype.encodeInto);
const bufferFrom = Buffer.from;
const encoder = new TextEncoder();

/** @typedef {"memory" | "wasm" | "given" | "message" | "listener" | "thread" | "real"} NoteKind */

/**
 * @typedef {object} Note one thing that an agent did unseen
 * @property {NoteKind} kind
 * @property {string} what memory that isn't recorded, in words; what was called; or what was given memory
 * @property {string} [place] file, line and column: where the memory was made, or where the call was made
 * @property {number} [calls] of Atomics on the memory
 * @property {number} [accesses] ordinary reads and writes of it
 * @property {string} [first] where the first of these calls and accesses was made
 * @property {string} [waits] where the run ended because the agent would have waited on the memory
 */

const BYTES = 2 ** 15;

// A text of so many characters fits, whatever they are.
const MOST_CHARACTERS = Math.floor((BYTES - 4) / 3);

export class Notes {
  /** @returns {SharedArrayBuffer} */
  static memory() {
    return new SharedArrayBuffer(BYTES);
  }

  /** @param {SharedArrayBuffer} memory of one agent */
  constructor(memory) {
    this.length = new Int32Array(memory, 0, 1);
    this.text = bufferFrom(memory, 4);
  }

  /** A run begins. */
  clear() {
    this.length[0] = 0;
  }

  /** @param {Note[]} notes as many of them as there is room for, and one at least */
  write(notes) {
    let text = stringify(notes);
    for (let count = notes.length - 1; text.length > MOST_CHARACTERS && count > 0; count -= 1) {
      const fewer = [];
      for (let at = 0; at < count; at += 1) fewer[at] = notes[at];
      text = stringify(fewer);
    }
    if (text.length > MOST_CHARACTERS) text = stringify([{ kind: notes[0].kind, what: notes[0].what }]);
    this.length[0] = encode(encoder, text, this.text).written;
  }

  /** @returns {Note[]} those of the run that was made last */
  read() {
    return this.length[0] === 0 ? [] : parse(this.text.toString("utf8", 0, this.length[0]));
  }
}
