// Clones of values, in the agent itself. A clone of a shared buffer is another object on the same memory. Here it is
// known; elsewhere nobody would see what is done with it.

import { apply, tagOf } from "../../primordials.mjs";
import { learn, memoryNumber, originalOf, refused } from "./context.mjs";
import { wrappedView } from "./data-view.mjs";
import { wrapped } from "./watched-elements.mjs";
import { revealed } from "./guards.mjs";
import { methodOf, replaceNeeded } from "./patch.mjs";
import { WHOLLY, isRecorded, isWatched, reaches } from "./reach.mjs";
import { recordedIn } from "./given-to-threads.mjs";
import { anyWatchedOf } from "./watched.mjs";

/**
 * A clone of watched memory.
 * @param {Function} engine
 * @param {any} value a watched array or view, or a recorded buffer
 * @param {unknown} options
 */
function clonedMemory(engine, value, options) {
  const watched = anyWatchedOf(value);
  const buffer = originalOf(watched === undefined ? value : watched.buffer);
  const block = memoryNumber(buffer);
  const pair = engine([watched === undefined ? buffer : watched.real, buffer], options);
  learn(pair[1], buffer);
  if (watched === undefined) return pair[0];
  return tagOf(pair[0]) === undefined ? wrappedView(pair[0], block) : wrapped(pair[0], block);
}

/** Patches what clones values in a watched realm. */
export function watchCloning() {
  replaceNeeded(globalThis, "structuredClone", (engine) => methodOf((_self, given) => {
    const value = given[0];
    if (isWatched(value)) return clonedMemory(engine, value, given[1]);
    if (reaches(value, WHOLLY, true, isRecorded)) {
      refused("structuredClone was given an object that holds recorded memory");
    }
    return apply(engine, undefined, revealed(given));
  }, engine));
}

/** Patches what clones values in a realm whose arrays are the engine's own. */
export function learnClones() {
  replaceNeeded(globalThis, "structuredClone", (engine) => methodOf((_self, given) => {
    const buffers = recordedIn(given[0]);
    if (buffers.length === 0) return apply(engine, undefined, given);
    const together = [given[0]];
    for (let at = 0; at < buffers.length; at += 1) together[1 + at] = buffers[at];
    const clones = engine(together, given[1]);
    for (let at = 0; at < buffers.length; at += 1) learn(clones[1 + at], buffers[at]);
    return clones[0];
  }, engine));
}
