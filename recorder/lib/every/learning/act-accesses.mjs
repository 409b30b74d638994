// Which moments of a call that is learned are compared with others: each call of Atomics, each choice, and the first
// read behind one. Behind many accesses each read is, too, so that a loop of reads is noticed.

import { DOES, isCall, isChoice, isMark } from "../search/nodes.mjs";

/** @typedef {import("./asked-nodes.mjs").AskedNode} AskedNode */

/** After so many accesses between two calls each read is compared with the ones before. */
const READS_BEFORE_COMPARING = 32;
const MOST_ACCESSES = 100_000;

export class ActAccesses {
  /** @param {boolean} isHead whether what comes next is the first behind a call */
  constructor(isHead) {
    this.isHead = isHead;
    /** How many accesses there were behind the last call or choice. */
    this.count = 0;
    /** Whether what is asked for is a call, a choice, or the end of an operation without a call. */
    this.stops = false;
    /** Whether it is a read behind many others. */
    this.isInLoop = false;
  }

  /** Whether there were more than can be. */
  get areTooMany() {
    return this.count > MOST_ACCESSES;
  }

  /** @param {AskedNode} asked what the agent asks for now @returns {boolean} whether it is compared with others */
  compares(asked) {
    const { does, error } = asked;
    this.stops = isCall(/** @type {any} */ (asked)) || isChoice(asked) || asked.isAlone;
    this.count = this.stops ? 0 : this.count + 1;
    const { isHead } = this;
    const isLong = !this.stops && this.count > READS_BEFORE_COMPARING;
    this.isInLoop = isLong && !isHead;
    // An agent goes on behind a store. A mark is no access.
    this.isHead = isMark(asked) ? isHead : does === DOES.STORE && error === undefined;
    return this.stops || (does === DOES.READ && (isHead || isLong));
  }
}
