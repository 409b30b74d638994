// Shared buffers that grow. Growing one, and asking for its length, are moves of the run. What a thread has done before
// it made the buffer longer comes before what is done by one that finds it longer. A call of `grow` that changes
// nothing, such as one that is refused, only reads the length (ECMA-262, SharedArrayBuffer.prototype.grow).

import { replace, replaceGetter } from "../../agent/ordinary/patch.mjs";
import { apply, mostLengthOf, sharedLengthOf } from "../../primordials.mjs";

const { prototype: shared } = SharedArrayBuffer;
const { trunc } = Math;
const NO_BLOCK = -1;
const { MAX_SAFE_INTEGER } = Number;

/** @param {unknown} length @returns {boolean} whether it is refused before the buffer's own length is looked at */
function isNoLength(length) {
  if (typeof length === "bigint" || typeof length === "symbol") return true;
  const index = trunc(Number(length));
  return index < 0 || index > MAX_SAFE_INTEGER;
}

/** @param {any} buffer @param {unknown} length @returns {boolean} whether that makes it longer */
const getsLonger = (buffer, length) => {
  const index = trunc(Number(length));
  return index > sharedLengthOf(buffer) && index <= mostLengthOf(buffer);
};

/**
 * @param {import("./buffers.mjs").Buffers} buffers of the thread
 * @param {import("./moves.mjs").Moves} moves
 * @param {() => boolean} isPlaying whether the thread has a part in a run
 */
export function installGrowing(buffers, moves, isPlaying) {
  /** @param {unknown} buffer @returns {number} its block, if it is one of a run and grows; else -1 */
  const blockOf = (buffer) => (isPlaying() ? buffers.growingBlock(buffer) : NO_BLOCK);
  replace(shared, "grow", (engine) => {
    const { grow } = {
      /** @param {unknown} length */
      grow(length) {
        const bytes = typeof length === "object" ? Number(length) : length;
        const block = isNoLength(bytes) ? NO_BLOCK : blockOf(this);
        if (block >= 0) moves.touchLength(block, grow, () => getsLonger(this, bytes));
        apply(engine, this, [bytes]);
        if (block >= 0) buffers.blocks.grew(block);
      },
    };
    return grow;
  });
  replaceGetter(shared, "byteLength", (engine) => ({
    get asked() {
      const block = blockOf(this);
      if (block >= 0) moves.touchLength(block, engine);
      return apply(engine, this, []);
    },
  }));
}
