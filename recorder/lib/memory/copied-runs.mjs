// Copies of what was written down of runs. Another thread reads a copy while the agents make the next run. Copies are
// in shared memory that has room for several, so nothing is allocated for a run, except for a long one.

import { EVENT_WORDS } from "./log.mjs";
import { Records } from "./records.mjs";
import { STORE_WORDS } from "./stores.mjs";

const { ArrayBuffer, Int32Array, SharedArrayBuffer } = globalThis;
const { load, store } = Atomics;

// A job makes at most so many runs ahead of the one that is read.
const SLOTS = 32;
const SLOT_BYTES = 65_536;
const NO_SLOT = -1;

// The memory begins with a word for each slot: whether it has a copy.
const HEAD_BYTES = SLOTS * Int32Array.BYTES_PER_ELEMENT;

/**
 * @typedef {object} Sizes of what was written down of a run
 * @property {number} events how many events its log has
 * @property {number} stores how many stores there are for ordinary writes
 * @property {number[]} calls how many each agent has made
 */

/** @typedef {{ sizes: Sizes, slot: number, own?: ArrayBuffer }} Copy a long one has memory of its own, and no slot */

/**
 * @typedef {object} CopiedParts of a copy
 * @property {Records[]} records of each agent's calls
 * @property {Int32Array} events
 * @property {Int32Array} stores
 */

/** @param {Sizes} sizes @returns {number} how many bytes a copy takes */
function bytesOf({ events, stores, calls }) {
  const words = events * EVENT_WORDS + stores * STORE_WORDS;
  return calls.reduce((sum, count) => sum + Records.bytesOf(count), words * Int32Array.BYTES_PER_ELEMENT);
}

export class CopiedRuns {
  /** @returns {SharedArrayBuffer} */
  static memory() {
    return new SharedArrayBuffer(HEAD_BYTES + SLOTS * SLOT_BYTES);
  }

  /** @param {SharedArrayBuffer} memory */
  constructor(memory) {
    this.memory = memory;
    this.used = new Int32Array(memory, 0, SLOTS);
  }

  /**
   * Copies a run.
   * @param {import("./log.mjs").Log} log
   * @param {Records[]} records of each agent
   * @param {import("./stores.mjs").Stores} stores
   * @param {number[]} calls how many each agent has made
   * @returns {Copy} it holds until it is freed
   */
  copy(log, records, stores, calls) {
    const sizes = { events: log.length, stores: stores.count, calls };
    const bytes = bytesOf(sizes);
    const slot = bytes > SLOT_BYTES ? NO_SLOT : this.#free();
    const copy = slot === NO_SLOT ? { sizes, slot, own: new ArrayBuffer(bytes) } : { sizes, slot };
    const parts = this.parts(copy);
    log.copyTo(parts.events);
    stores.copyTo(parts.stores);
    for (let agent = 0; agent < calls.length; agent += 1) records[agent].copyTo(parts.records[agent]);
    return copy;
  }

  /** @param {Copy} copy that wasn't freed @returns {CopiedParts} */
  parts({ sizes, slot, own }) {
    const memory = own ?? this.memory;
    let at = slot === NO_SLOT ? 0 : HEAD_BYTES + slot * SLOT_BYTES;
    const records = sizes.calls.map((count) => {
      const from = at;
      at += Records.bytesOf(count);
      return new Records(memory, from, count);
    });
    const events = new Int32Array(memory, at, sizes.events * EVENT_WORDS);
    const stores = new Int32Array(memory, at + events.byteLength, sizes.stores * STORE_WORDS);
    return { records, events, stores };
  }

  /** @param {Copy} copy that nobody reads any more */
  free({ slot }) {
    if (slot !== NO_SLOT) store(this.used, slot, 0);
  }

  /** @returns {number} a slot that is used from now on, or `NO_SLOT` */
  #free() {
    for (let slot = 0; slot < SLOTS; slot += 1) {
      if (load(this.used, slot) !== 0) continue;
      store(this.used, slot, 1);
      return slot;
    }
    return NO_SLOT;
  }
}
