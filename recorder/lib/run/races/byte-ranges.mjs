// The bytes that a run's events are about, in ranges that are divided wherever an event's bytes begin or end. So each
// event is about all bytes of a range or none of them. The ranges have numbers without gaps, however large the blocks
// are. The ranges of an event have numbers that follow each other.

import { FLAG } from "../../memory/log.mjs";

/** @typedef {import("../../memory/log.mjs").Log} Log */

const EFFECTS = FLAG.READS | FLAG.WRITES | FLAG.WAITERS;

/** More than the position of any byte of a block. */
const MOST_BYTES = 2 ** 32;

export class ByteRanges {
  /** @param {Log} log */
  constructor(log) {
    const bounds = new Float64Array(2 * log.length);
    let count = 0;
    for (let event = 0; event < log.length; event += 1) {
      if ((log.flagsAt(event) & EFFECTS) === 0) continue;
      const first = log.blockAt(event) * MOST_BYTES;
      bounds[count] = first + log.fromAt(event);
      bounds[count + 1] = first + log.toAt(event);
      count += 2;
    }
    /** Where each range begins, in rising order: its block times the most bytes of one, and its first byte. */
    this.bounds = bounds.subarray(0, count).sort().filter((bound, at, all) => at === 0 || all[at - 1] !== bound);
  }

  /** @returns {number} how many there are */
  get count() {
    return this.bounds.length;
  }

  /**
   * @param {number} block
   * @param {number} byte at which an event begins, or that comes after its end
   * @returns {number}
   */
  at(block, byte) {
    const { bounds } = this;
    const bound = block * MOST_BYTES + byte;
    let from = 0;
    let to = bounds.length;
    while (from < to) {
      const middle = (from + to) >>> 1;
      if (bounds[middle] < bound) from = middle + 1;
      else to = middle;
    }
    return from;
  }

  /** @param {number} range @returns {{ block: number, byte: number }} where it begins */
  placeOf(range) {
    const bound = this.bounds[range];
    return { block: Math.floor(bound / MOST_BYTES), byte: bound % MOST_BYTES };
  }
}
