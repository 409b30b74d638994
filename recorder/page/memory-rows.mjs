// The rows of memory that a page shows: what has a name, and what else is accessed.

import { isNamed, plainName } from "../script/written.mjs";
import { cellAt, isWord, sizeOf } from "./elements.mjs";

/** @typedef {import("./elements.mjs").Cell} Cell */
/** @typedef {import("./elements.mjs").Views} Views */
/** @typedef {import("./steps.mjs").Access} Access */
/** @typedef {import("./steps.mjs").Step} Step */
/** @typedef {import("./words.mjs").View} View */

/** @typedef {{ name: string, isWord: boolean, cells: Cell[], more: number }} Row of memory that is shown */

// Nobody looks at more elements of one view.
const MOST_CELLS = 128;

export class Rows {
  /** @param {Views} views @param {Step[]} steps of the run */
  constructor(views, steps) {
    this.views = views;
    this.steps = steps;
    /** @type {Map<string, Map<number, Cell>>} the elements of each view, by their bytes */
    this.rows = new Map();
    /** Which bytes have a name: they are shown by it alone. */
    this.named = views.blocks.map((length) => new Uint8Array(length));
    /** @type {Set<string>} the elements that have no name and are shown */
    this.shown = new Set();
  }

  /** @returns {Row[]} */
  all() {
    for (const view of this.views.list) if (this.views.named.includes(view)) this.#addNamed(view);
    for (const { accesses } of this.steps) for (const access of accesses) this.#addAccess(access);
    return [...this.rows].map(([name, cells]) => {
      const all = [...cells.values()].sort((one, other) => one.byte - other.byte);
      const more = Math.max(0, all.length - MOST_CELLS);
      return { name, isWord: isWord(all[0].view), cells: all.slice(0, MOST_CELLS), more };
    });
  }

  /** @param {View} view that has a name */
  #addNamed(view) {
    const size = sizeOf(view);
    this.named[view.block].fill(1, view.offset, view.offset + view.length * size);
    for (let at = 0; at < Math.min(view.length, MOST_CELLS); at += 1) this.#add(view, view.offset + at * size);
  }

  /** @param {Access} access */
  #addAccess({ block, byte, size, view = this.views.plain(block, byte, size) }) {
    for (let at = byte; at < byte + size; at += sizeOf(view)) {
      const key = `${view.kind} ${block} ${at}`;
      if (isNamed(view)) this.#add(view, at);
      else if (!this.shown.has(key) && !this.#isNamed(block, at, sizeOf(view))) {
        this.shown.add(key);
        this.#add(view, at);
      }
    }
  }

  /** @param {View} view @param {number} byte */
  #add(view, byte) {
    const name = plainName(view);
    const cells = this.rows.get(name) ?? new Map();
    this.rows.set(name, cells);
    if (!cells.has(byte)) cells.set(byte, cellAt(view, byte));
  }

  /**
   * Whether all of some bytes have a name.
   * @param {number} block
   * @param {number} byte
   * @param {number} size
   */
  #isNamed(block, byte, size) {
    return this.named[block].subarray(byte, byte + size).every((mark) => mark === 1);
  }
}
