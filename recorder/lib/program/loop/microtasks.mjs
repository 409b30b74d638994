// What `queueMicrotask` calls. If the code of a run has been left, it is dropped: in some versions of node no hook
// shows that it begins.

import { replaceNeeded } from "../../agent/ordinary/patch.mjs";
import { apply, weakHas, weakSet } from "../../primordials.mjs";

/** @type {WeakMap<object, true>} what node is given to call */
const ours = new WeakMap();

/** @param {any} resource of what node calls @returns {boolean} whether it is dropped, as the code has been left */
export const isDropped = ({ callback }) => typeof callback === "function" && weakHas(ours, callback);

/** @param {() => boolean} isPlaying whether the thread's code has a part in a run */
export function installMicrotasks(isPlaying) {
  replaceNeeded(globalThis, "queueMicrotask", (engine) => (/** @type {any[]} */ ...given) => {
    // A program may have replaced iterators, so the list isn't taken apart.
    const act = given[0];
    // Node throws its error.
    if (typeof act !== "function") return apply(engine, undefined, given);
    const call = () => {
      if (isPlaying()) act();
    };
    weakSet(ours, call, true);
    return engine(call);
  });
}
