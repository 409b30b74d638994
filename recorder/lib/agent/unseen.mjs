// What an agent does that nobody sees: with shared memory that isn't recorded, by other threads, and by messages. It is
// noted, with its lines, for the referee.

import { Notes } from "../memory/notes.mjs";
import { ownKeys, weakGet, weakSet } from "../primordials.mjs";
import { sourceHere } from "./frames.mjs";

/** @typedef {import("../memory/notes.mjs").Note} Note */

const { WeakMap: EngineWeakMap, SharedArrayBuffer: EngineShared } = globalThis;

/** How often memory may be used in a run before the run is ended: it may be a spin, and the run doesn't pass anyway. */
const MOST_USES = 100_000;

/**
 * @typedef {object} UnrecordedMemory shared memory that isn't recorded
 * @property {Note} note of the run that goes on
 * @property {number} run the number of the run in which it was used last
 */

export class Unseen {
  /** @param {boolean} isAllowed whether a run in which agents use such memory may pass */
  constructor(isAllowed) {
    this.isAllowed = isAllowed;
    /** @type {Notes | undefined} the notes that it is written to; none while the module is being loaded */
    this.notes = undefined;
    /** @type {WeakMap<object, UnrecordedMemory>} by their buffers */
    this.memories = new EngineWeakMap();
    /**
     * @type {WeakMap<object, boolean>} buffers that aren't watched: whether they are the recorder's or node's, or
     * copies
     */
    this.others = new EngineWeakMap();
    /** @type {Note[]} what stays from run to run */
    this.lasting = [];
    /** @type {Note[]} of the run that goes on */
    this.found = [];
    this.run = 0;
  }

  /** @param {object} memory that has a copy of bytes, and that no other code has */
  addCopy(memory) {
    weakSet(this.others, memory, false);
  }

  /**
   * Leaves memory of the recorder's own, or of node's, out.
   * @param {any} memory buffers, in lists and objects
   */
  exclude(memory) {
    if (memory instanceof EngineShared) {
      weakSet(this.others, memory, true);
      return;
    }
    const keys = ownKeys(memory);
    for (let at = 0; at < keys.length; at += 1) {
      const value = memory[keys[at]];
      if (typeof value === "object") this.exclude(value);
    }
  }

  /** @param {unknown} buffer @returns {boolean} whether ordinary accesses to it are noted */
  isWatched(buffer) {
    return Unseen.isShared(buffer) && weakGet(this.others, buffer) === undefined;
  }

  /** @param {unknown} buffer @returns {buffer is SharedArrayBuffer} whether calls of Atomics on it are noted */
  isProgramMemory(buffer) {
    return Unseen.isShared(buffer) && weakGet(this.others, buffer) !== true;
  }

  /** A run begins. */
  begin() {
    this.run += 1;
    if (this.found.length > 0) this.found = [];
    if (this.lasting.length > 0) this.write();
  }

  /** Writes down all that was noted. */
  write() {
    if (this.found.length === 0 && this.lasting.length === 0) return;
    const all = [];
    for (let at = 0; at < this.found.length; at += 1) all[all.length] = this.found[at];
    for (let at = 0; at < this.lasting.length; at += 1) all[all.length] = this.lasting[at];
    this.notes?.write(all);
  }

  /**
   * Notes something.
   * @param {Note} note
   * @param {boolean} [lasts] whether what was done goes on in later runs
   */
  add(note, lasts = false) {
    const list = lasts ? this.lasting : this.found;
    list[list.length] = note;
    this.write();
  }

  /**
   * Remembers where memory was made.
   * @param {object} buffer
   * @param {string} what it is, in words
   */
  remember(buffer, what) {
    weakSet(this.memories, buffer, { note: { kind: "memory", what, place: sourceHere() }, run: -1 });
  }

  /** @param {unknown} buffer @returns {buffer is SharedArrayBuffer} whether it can be shared */
  static isShared(buffer) {
    return buffer instanceof EngineShared;
  }

  /** @param {object} buffer @returns {boolean} whether it was used in this run otherwise than to sleep */
  isUsed(buffer) {
    return weakGet(this.memories, buffer)?.run === this.run;
  }

  /**
   * Counts a use of memory.
   * @param {object} buffer
   * @param {"calls" | "accesses"} how
   * @returns {boolean} whether it was used too often
   */
  use(buffer, how) {
    const note = this.#noteOf(buffer);
    note[how] = (note[how] ?? 0) + 1;
    return !this.isAllowed && (note.calls ?? 0) + (note.accesses ?? 0) >= MOST_USES;
  }

  /** @param {object} buffer at which the agent would wait now */
  wait(buffer) {
    this.#noteOf(buffer).waits = sourceHere() ?? "";
    this.write();
  }

  /** @param {object} buffer @returns {Note} of this run */
  #noteOf(buffer) {
    const known = weakGet(this.memories, buffer);
    const { kind = "memory", what = "a SharedArrayBuffer", place } = known?.note ?? {};
    if (known?.run === this.run) return known.note;
    const alike = this.#madeAt(what, place);
    /** @type {Note} */
    const note = alike ?? { kind, what, place, calls: 0, accesses: 0, first: sourceHere() };
    weakSet(this.memories, buffer, { note, run: this.run });
    if (alike === undefined) this.add(note);
    return note;
  }

  /** @param {string} what @param {string | undefined} place @returns {Note | undefined} of memory made there before */
  #madeAt(what, place) {
    for (let at = 0; at < this.found.length; at += 1) {
      const note = this.found[at];
      if (note.kind === "memory" && note.what === what && note.place === place) return note;
    }
    return undefined;
  }
}
