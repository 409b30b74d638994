// Which unordered accesses are alike, so that one pair of each kind is reported.

import { FLAG } from "../../memory/log.mjs";

/** @typedef {import("../../memory/log.mjs").Log} Log */

// A line's number: which agent, what it does, and its place in the code or, in odd numbers, the view.
const AGENT_BITS = 4;
const DEED_BITS = 3;
const DEEDS = FLAG.READS | FLAG.WRITES | FLAG.ATOMIC;

/** Numbers of the lines of code of a run's accesses; if a line isn't known, the view stands for it. */
export class Lines {
  /** @param {Log} log */
  constructor(log) {
    this.log = log;
    /** @type {Map<string, number>} */
    this.views = new Map();
  }

  /** @param {number} event @returns {number} the same if agent, line and what is done are the same */
  of(event) {
    const { log } = this;
    const source = log.sourceAt(event);
    const place = source > 0 ? source * 2 : this.#viewOf(event) * 2 + 1;
    return (((place << DEED_BITS) | (log.flagsAt(event) & DEEDS)) << AGENT_BITS) | log.agentAt(event);
  }

  /** @param {number} event */
  #viewOf(event) {
    const { kind, block, offset, length } = this.log.at(event);
    const key = [kind, block, offset, length].join(" ");
    const known = this.views.get(key);
    if (known !== undefined) return known;
    this.views.set(key, this.views.size);
    return this.views.size - 1;
  }
}

/** Pairs of numbers. */
export class Pairs {
  constructor() {
    /** @type {Map<number, Set<number>>} */
    this.seconds = new Map();
  }

  /** @param {number} first @param {number} second @returns {boolean} whether it wasn't there */
  add(first, second) {
    const known = this.seconds.get(first);
    if (known === undefined) this.seconds.set(first, new Set([second]));
    else if (known.has(second)) return false;
    else known.add(second);
    return true;
  }
}
