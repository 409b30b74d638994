// What pilot runs have shown about each byte: whose it is, or that several agents use it. Who moves first matters only
// where agents can meet. A byte counts as such a place if nothing is known about it.

import { SCRIPT_LIMITS } from "../../script/limits.mjs";
import { FLAG } from "./log.mjs";

const { Uint8Array, SharedArrayBuffer } = globalThis;

// What is known about a byte. 0: nothing. 1 to 16: only agent n - 1 uses it.
const ORDERED = 253;
const READ_ALONE = 254;
const SHARED = 255;

/** How many bytes all blocks of a script can have. */
export const PLACES = SCRIPT_LIMITS.blocks * SCRIPT_LIMITS.bytes;

/** A power of two. */
const MORE_PLACES = 2 ** 30;

/**
 * @param {number} block
 * @param {number} byte
 * @returns {number} the number of a place: no other byte has it; in blocks that no script can have, few bytes share one
 */
export const placeNumber = (block, byte) => {
  const place = block * SCRIPT_LIMITS.bytes + byte;
  return place < PLACES ? place : PLACES + (place & (MORE_PLACES - 1));
};

export class KnownPlaces {
  /** @returns {SharedArrayBuffer} */
  static memory() {
    return new SharedArrayBuffer(PLACES);
  }

  /** @param {SharedArrayBuffer} memory */
  constructor(memory) {
    this.known = new Uint8Array(memory);
  }

  /**
   * @param {number} block
   * @param {number} byte
   * @returns {number} the number by which one finds what is known about it
   */
  placeOf(block, byte) {
    return placeNumber(block, byte);
  }

  /** @param {number} how what a call does, as flags @returns {boolean} whether it can be private: waits can't */
  canBePrivate(how) {
    return (how & FLAG.WAITERS) === 0;
  }

  /** @param {number} place that one agent uses alone @param {number} agent */
  giveTo(place, agent) {
    this.known[place] = agent + 1;
  }

  /** @param {number} place that several agents read, and nobody writes */
  setReadAlone(place) {
    this.known[place] = READ_ALONE;
  }

  /** @param {number} place that agents use in an order that their messages give */
  setOrdered(place) {
    this.known[place] = ORDERED;
  }

  /** @param {number} place where several agents meet */
  share(place) {
    this.known[place] = SHARED;
  }

  /**
   * Whether what an agent does to some bytes concerns no other agent.
   * @param {number} agent
   * @param {number} from a place
   * @param {number} to the place behind the last one
   * @param {boolean} writes
   */
  isPrivate(agent, from, to, writes) {
    const { known } = this;
    for (let place = from; place < to; place += 1) {
      const isOwn = known[place] === agent + 1 || known[place] === ORDERED;
      if (!isOwn && (writes || known[place] !== READ_ALONE)) return false;
    }
    return from < to;
  }
}
