// The buffers that agents share, and beside each a copy of what the recorder knows to be written, which shows bytes
// that changed otherwise. Both are shared memory, so that each thread sees what the others did.

import { SIZES } from "../../script/kinds.mjs";
import { SCRIPT_LIMITS } from "../../script/limits.mjs";
import { uncurried } from "../primordials.mjs";

const { Uint8Array } = globalThis;
const areEqual = uncurried(Buffer.prototype.equals);
const setBytes = uncurried(Uint8Array.prototype.set);

/** So many bytes are compared here in less time than by a call of node. */
const SHORT = 24;

/** @typedef {{ block: number, byte: number, was: number, is: number }} ByteChange */

export class RecordedMemory {
  /** @param {SharedArrayBuffer[]} buffers @param {SharedArrayBuffer[]} copies as long as they are */
  constructor(buffers, copies) {
    this.real = [];
    this.shadow = [];
    for (let block = 0; block < buffers.length; block += 1) {
      this.real[block] = new Uint8Array(buffers[block]);
      this.shadow[block] = new Uint8Array(copies[block]);
    }
  }

  /** Makes every byte zero. */
  reset() {
    for (const bytes of [...this.real, ...this.shadow]) bytes.fill(0);
  }

  /** @returns {string[]} the known bytes of each block that a script can have, two hexadecimal digits for each */
  hex() {
    const shadow = this.shadow.slice(0, SCRIPT_LIMITS.blocks);
    return shadow.map(({ buffer, byteOffset, length }) => Buffer.from(buffer, byteOffset, length).toString("hex"));
  }

  /**
   * Takes over bytes that were written.
   * @param {number} block
   * @param {number} from
   * @param {number} to
   * @returns {boolean} whether one of them isn't as it was known
   */
  syncShadow(block, from, to) {
    const real = this.real[block];
    const shadow = this.shadow[block];
    let isChanged = false;
    for (let byte = from; byte < to; byte += 1) {
      if (shadow[byte] === real[byte]) continue;
      shadow[byte] = real[byte];
      isChanged = true;
    }
    return isChanged;
  }

  /** @param {number} block whose bytes are known from now on as they are */
  takeAll(block) {
    setBytes(this.shadow[block], this.real[block]);
  }

  /**
   * Whether a byte of the block isn't as it is known. Comparing a block that is longer than a script's would take long
   * each time. One that grows is as long as its known bytes only when it has grown as far as it can. Of both kinds only
   * what is seen is known.
   * @param {number} block
   */
  hasChanged(block) {
    const real = this.real[block];
    const shadow = this.shadow[block];
    // A block that a program's thread doesn't know has no bytes: both are one array.
    if (real === shadow) return false;
    const { length } = real;
    if (length !== shadow.length || length > SCRIPT_LIMITS.bytes) return false;
    return length > SHORT ? !areEqual(real, shadow) : areDifferent(real, shadow, length);
  }

  /** @returns {ByteChange | undefined} the first byte that isn't as it is known */
  changed() {
    for (let block = 0; block < this.real.length; block += 1) {
      if (!this.hasChanged(block)) continue;
      const real = this.real[block];
      const shadow = this.shadow[block];
      let byte = 0;
      while (real[byte] === shadow[byte]) byte += 1;
      return { block, byte, was: shadow[byte], is: real[byte] };
    }
    return undefined;
  }
}

/**
 * The byte of its block at which a call's element begins.
 * @param {import("./records.mjs").Call} call
 * @returns {number}
 */
export function byteOf(call) {
  return call.offset + call.index * SIZES[call.kind];
}

/**
 * @param {Uint8Array} one
 * @param {Uint8Array} other
 * @param {number} length of both
 * @returns {boolean} whether a byte differs
 */
function areDifferent(one, other, length) {
  for (let byte = 0; byte < length; byte += 1) {
    if (one[byte] !== other[byte]) return true;
  }
  return false;
}
