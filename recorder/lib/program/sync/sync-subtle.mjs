// `crypto.subtle`: node's own code, whose work in other threads is done at once. A task of the run has the result
// later.

import { apply } from "../../primordials.mjs";
import { ONE_TRIP } from "./trips.mjs";
import { subtleOver } from "../node/internals.mjs";
import { replaceCall } from "./sync-calls.mjs";

/** @typedef {import("./sync-calls.mjs").SyncVersionContext} SyncVersionContext */

/** What of `crypto.subtle` uses no other threads, or is done at once. The rest is refused. */
const SUBTLE = Object.freeze([
  "decrypt", "deriveBits", "deriveKey", "digest", "encrypt", "exportKey", "importKey", "sign", "unwrapKey", "verify",
  "wrapKey",
]);

/** @param {SyncVersionContext} given */
export function putSubtle(given) {
  const { isPlaying = () => true, later } = given;
  const { SubtleCrypto: { prototype }, crypto: { subtle } } = /** @type {any} */ (globalThis);
  /** @type {any} it is made when it is needed: that takes long */
  let made;
  for (const name of SUBTLE) {
    const engine = prototype[name];
    replaceCall(prototype, name, /** @this {any} */ function (/** @type {any[]} */ ...all) {
      if (!isPlaying() || this !== subtle) return apply(engine, this, all);
      made ??= subtleOver((act) => later("has a result of crypto.subtle", act, undefined, ONE_TRIP));
      return made[name](...all);
    });
  }
}
