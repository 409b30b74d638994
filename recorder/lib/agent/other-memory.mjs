// Shared memory that the agents' code makes itself. The place where it makes some is remembered, so that a message can
// say so.

import { apply, getOwnPropertyDescriptor, uncurried, weakGet, weakSet } from "../primordials.mjs";
import { isCalledByAgents, sourceHere } from "./frames.mjs";
import { replaceClass } from "./ordinary/patch.mjs";
import { Unseen } from "./unseen.mjs";

const { WeakMap: EngineWeakMap, Object: EngineObject } = globalThis;
const { values } = EngineObject;
const EngineMemory = WebAssembly.Memory;
const ofBuffer = /** @type {{ get: Function }} */ (getOwnPropertyDescriptor(EngineMemory.prototype, "buffer"));
const { get: bufferGetter } = ofBuffer;
const memoryBuffer = uncurried(bufferGetter);
const growable = getOwnPropertyDescriptor(SharedArrayBuffer.prototype, "growable")?.get;
/** @type {(buffer: object) => unknown} older engines have none that grow */
const isGrowable = growable === undefined ? () => false : uncurried(growable);

/**
 * Whether arrays on shared memory can be watched: not if the memory grows, and they with it. Then it is noted that one
 * is made.
 * @param {any} buffer
 * @param {(buffer: object) => void} note
 */
export function isWatchable(buffer, note) {
  if (isGrowable(buffer) !== true) return true;
  note(buffer);
  return false;
}

/**
 * @typedef {(made: any, isAgents: boolean) => void} MadeCallback gets what a constructor has made, and whether for
 * agents
 */

/**
 * Puts a constructor in the place of an engine's own one, which reports what it makes.
 * @param {object} owner
 * @param {string} name
 * @param {MadeCallback} note
 */
const noteMaking = (owner, name, note) => replaceClass(owner, name, (make, _given, called) => {
  const made = make();
  note(made, isCalledByAgents(called));
  return made;
});

/**
 * Notes what is done with memory for WebAssembly. Nothing that it does is seen: where it was made is all that is known.
 * @param {Unseen} unseen
 */
function noteWebAssembly(unseen) {
  const known = new EngineWeakMap();
  /** @type {MadeCallback} */
  const note = (memory) => {
    const buffer = memoryBuffer(memory);
    if (!Unseen.isShared(buffer) || weakGet(known, memory) === true) return;
    weakSet(known, memory, true);
    unseen.remember(buffer, "the memory of a WebAssembly.Memory");
    unseen.add({ kind: "wasm", what: "a shared WebAssembly.Memory", place: sourceHere() }, true);
  };
  noteMaking(WebAssembly, "Memory", note);
  const found = /** @type {any} */ (getOwnPropertyDescriptor(WebAssembly.Instance.prototype, "exports"));
  const { get: exported } = found;
  EngineObject.defineProperty(WebAssembly.Instance.prototype, "exports", {
    ...found,
    // A module can have shared memory of its own.
    get() {
      const all = apply(exported, this, []);
      const list = values(all);
      for (let at = 0; at < list.length; at += 1) if (list[at] instanceof EngineMemory) note(list[at], true);
      return all;
    },
  });
}

/**
 * Patches what makes shared memory.
 * @param {Unseen} unseen
 */
export function watchMaking(unseen) {
  noteMaking(globalThis, "SharedArrayBuffer", (buffer, isAgents) => {
    if (!isAgents) unseen.exclude(buffer);
    else unseen.remember(buffer, isGrowable(buffer) === true ? "a growable SharedArrayBuffer" : "a SharedArrayBuffer");
  });
  noteWebAssembly(unseen);
}
