// Which ordinary accesses an agent has made since its last call, so that the same one is noted once, and a spin is
// found. Nobody else moves between two calls of an agent, so what it repeats there shows nothing new.

import { FIRST_MORE } from "../memory/more-blocks.mjs";
import { mapGet, mapSet, slotOf, uncurried } from "../primordials.mjs";

const { Int32Array, Map: EngineMap } = globalThis;
const fill = uncurried(Int32Array.prototype.fill);
const clearMap = uncurried(EngineMap.prototype.clear);
const sizeOf = slotOf(EngineMap.prototype, "size");

/** More than the position of any byte of a block. */
const MOST_BYTES = 2 ** 31;

// So often is one access repeated before it is a spin: nothing that it reads can change meanwhile.
const SPIN = 1_000_000;

const MOST_EPOCHS = 2 ** 26;

/** What an access is among those since the last call. */
export const REPEATED = Object.freeze({ NEW: 0, KNOWN: 1, SPINS: 2 });

export class RepeatedAccesses {
  /** @param {number[]} lengths of the blocks */
  constructor(lengths) {
    /** For each byte, when an access last began there, and how long it was: for reads, and for writes. */
    this.reads = [];
    this.writes = [];
    for (let block = 0; block < lengths.length; block += 1) {
      this.reads[block] = new Int32Array(lengths[block]);
      this.writes[block] = new Int32Array(lengths[block]);
    }
    /**
     * @type {Map<number, number>} for blocks that no script can have: how long the accesses since the last call were
     */
    this.more = new EngineMap();
    this.epoch = 1;
    this.again = 0;
    this.last = -1;
  }

  /** A run begins. */
  begin() {
    if (this.epoch > MOST_EPOCHS / 2) {
      for (let block = 0; block < this.reads.length; block += 1) {
        fill(this.reads[block], 0);
        fill(this.writes[block], 0);
      }
      this.epoch = 0;
    }
    this.renew();
  }

  /** The agent has made a call: others may move. */
  renew() {
    this.epoch += 1;
    this.again = 0;
    this.last = -1;
    if (sizeOf(this.more) > 0) clearMap(this.more);
  }

  /**
   * Whether the agent has made an access since its last call. One that is new is added when it is in the log:
   * if the stack runs out in between, the agent may make it again.
   * @param {{ block: number }} place
   * @param {number} from
   * @param {number} to
   * @param {boolean} writes
   * @returns {number} whether it is new, known or a spin
   */
  note(place, from, to, writes) {
    const size = to - from;
    if (size > 8) return REPEATED.NEW;
    if (!this.#isKnown(place.block, from, size, writes)) return REPEATED.NEW;
    if (writes || this.last !== from) {
      this.last = writes ? -1 : from;
      this.again = 0;
      return REPEATED.KNOWN;
    }
    this.again += 1;
    return this.again < SPIN ? REPEATED.KNOWN : REPEATED.SPINS;
  }

  /**
   * An access that was new is in the log.
   * @param {{ block: number }} place
   * @param {number} from
   * @param {number} to
   * @param {boolean} writes
   */
  add(place, from, to, writes) {
    const size = to - from;
    if (size > 8) return;
    if (place.block >= FIRST_MORE) {
      mapSet(this.more, keyOf(place.block, from, writes), size);
      return;
    }
    const stamps = writes ? this.writes[place.block] : this.reads[place.block];
    stamps[from] = (this.epoch << 4) | size;
  }

  /** @param {number} block @param {number} from @param {number} size @param {boolean} writes */
  #isKnown(block, from, size, writes) {
    if (block >= FIRST_MORE) return mapGet(this.more, keyOf(block, from, writes)) === size;
    const stamps = writes ? this.writes[block] : this.reads[block];
    return stamps[from] === ((this.epoch << 4) | size);
  }
}

/** @param {number} block @param {number} from @param {boolean} writes */
const keyOf = (block, from, writes) => (block * 2 + (writes ? 1 : 0)) * MOST_BYTES + from;
