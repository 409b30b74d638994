// Recorded buffers themselves: a part of one is a copy, which is read.

import { construct, sharedLengthOf, uncurried } from "../../primordials.mjs";
import { blockNumber, watching } from "./context.mjs";
import { positionOf } from "./argument-conversions.mjs";
import { methodOf, replaceNeeded } from "./patch.mjs";
import { WHOLE_BUFFER, unwrapped } from "./watched.mjs";

const { TypeError: EngineTypeError } = globalThis;
const EngineShared = SharedArrayBuffer;
const EngineBytes = Uint8Array;
const { species } = Symbol;
const setElements = uncurried(EngineBytes.prototype.set);

/**
 * The constructor of what `slice` returns.
 * @param {any} buffer as agents may have changed it
 */
function speciesOf(buffer) {
  const { constructor } = buffer;
  if (constructor === undefined) return EngineShared;
  if ((typeof constructor !== "object" && typeof constructor !== "function") || constructor === null) {
    throw new EngineTypeError("object.constructor is not an object");
  }
  return constructor[species] ?? EngineShared;
}

/**
 * The buffer that `slice` returns, by the receiver's species.
 * @param {object} buffer
 * @param {number} count of bytes
 */
function answered(buffer, count) {
  const made = construct(speciesOf(buffer), [count]);
  if (sharedLengthOf(made) < count || made === buffer) {
    throw new EngineTypeError("Species constructor did not return a new SharedArrayBuffer of enough bytes");
  }
  return made;
}

/**
 * Reports that bytes of a buffer are accessed, if it is recorded.
 * @param {object} buffer
 * @param {number} from
 * @param {number} to
 * @param {boolean} writes
 */
function reportBytes(buffer, from, to, writes) {
  const block = blockNumber(buffer);
  if (block < 0 || from >= to) return;
  watching.seen({ block, kind: WHOLE_BUFFER, offset: 0, length: sharedLengthOf(buffer) }, from, to, writes);
}

/** Patches what there is of shared buffers in this realm. */
export function watchBuffers() {
  replaceNeeded(EngineShared.prototype, "slice", (engine) => methodOf((self, given) => {
    const length = sharedLengthOf(self);
    const from = positionOf(given[0], length, 0);
    const to = positionOf(given[1], length, length);
    const count = from < to ? to - from : 0;
    const made = answered(self, count);
    watching.copied(made);
    reportBytes(self, from, to, false);
    reportBytes(made, 0, count, true);
    setElements(new EngineBytes(made), new EngineBytes(self, from, count));
    return made;
  }, engine));
  replaceNeeded(ArrayBuffer, "isView", (engine) => (/** @type {unknown} */ value) => engine(unwrapped(value)));
}
