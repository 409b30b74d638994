// The tasks that the event loops of a program's threads begin: timers, immediates, and results of slow functions. And
// what is in its messages. They are no accesses of a run, so they have a list of their own beside its log, in shared
// memory. They are noted in runs that note their lines of code.

import { uncurried } from "../primordials.mjs";

const { Int32Array, SharedArrayBuffer, Uint8Array } = globalThis;
const encode = uncurried(TextEncoder.prototype.encodeInto);
const encoder = new TextEncoder();
const bufferFrom = Buffer.from;

/** Room for thousands of tasks; what isn't written to takes no memory. */
const BYTES = 2 ** 20;
const HEAD = 4;
const TASK_PARTS = 4;

/**
 * @typedef {object} TaskNote
 * @property {number} event how many events of the run's log come before it
 * @property {number} agent
 * @property {string} text what it is, in words
 * @property {string} place where it was made: file, line and column; empty: it isn't known
 */

export class TaskNotes {
  /** @returns {SharedArrayBuffer} */
  static memory() {
    return new SharedArrayBuffer(BYTES);
  }

  /** @param {SharedArrayBuffer} memory */
  constructor(memory) {
    this.used = new Int32Array(memory, 0, 1);
    this.bytes = new Uint8Array(memory, HEAD);
  }

  /** A run begins. */
  begin() {
    this.used[0] = 0;
  }

  /** @param {TaskNote} task that begins now; if there is no room for it, it isn't noted */
  note({ event, agent, text, place }) {
    this.#add([event, agent, text, place]);
  }

  /** @param {number} number of a message @param {string} text what is in it, in words */
  noteMessage(number, text) {
    this.#add([number, text]);
  }

  /** @param {unknown[]} parts */
  #add(parts) {
    const { used, bytes } = this;
    const line = `${JSON.stringify(parts)}\n`;
    // A character takes three bytes at most.
    if (used[0] + 3 * line.length > bytes.length) return;
    used[0] += encode(encoder, line, bytes.subarray(used[0])).written;
  }

  /** @returns {TaskNote[]} in their order */
  list() {
    const tasks = this.#all().filter((parts) => parts.length === TASK_PARTS);
    return tasks.map(([event, agent, text, place]) => ({ event, agent, text, place }));
  }

  /** @returns {[number, string][]} the number of each message, and what is in it */
  messages() {
    return /** @type {[number, string][]} */ (this.#all().filter((parts) => parts.length !== TASK_PARTS));
  }

  /** @returns {any[][]} */
  #all() {
    const lines = bufferFrom(this.bytes.slice(0, this.used[0]).buffer).toString("utf8").split("\n").slice(0, -1);
    return lines.map((line) => JSON.parse(line));
  }
}
