// `fs.opendir` and the folders that it opens, by their synchronous versions.

import fs from "node:fs";
import { apply, put } from "../../primordials.mjs";
import { callLater, outcomeOf, promiseLater, putSyncVersion, replaceCall } from "./sync-calls.mjs";

/** @typedef {import("./sync-calls.mjs").SyncVersionContext} SyncVersionContext */

const files = /** @type {any} */ (fs);

/** The code of the error that a folder was closed before. */
const CLOSED = "ERR_DIR_CLOSED";

/**
 * @param {SyncVersionContext} given
 * @param {string} name of a method of a folder, whose synchronous version has `Sync` at its end
 */
function putMethod(given, name) {
  const { prototype } = files.Dir;
  const { [name]: engine, [`${name}Sync`]: sync } = prototype;
  const { isPlaying = () => true } = given;
  replaceCall(prototype, name, /** @this {any} */ function (/** @type {any} */ done) {
    if (!isPlaying() || (done !== undefined && typeof done !== "function")) return apply(engine, this, [done]);
    const { value, problem = null } = outcomeOf(() => apply(sync, this, []));
    // What is asked of one folder comes in its order.
    const order = { trips: 1, of: this, isLast: true };
    // Node says so at once, or by a promise, as its version has it.
    if (problem?.code === CLOSED) return apply(engine, this, [done]);
    if (done === undefined) {
      return promiseLater(given, name, () => {
        if (problem !== null) throw problem;
        return value;
      }, { order });
    }
    return callLater(given, name, done, problem === null && name === "read" ? [null, value] : [problem], order);
  });
}

/** @param {SyncVersionContext} given */
export function putFolders(given) {
  const { isPlaying = () => true } = given;
  const { opendirSync, promises, Dir: { prototype } } = files;
  const { opendir } = promises;
  putSyncVersion(given, files, "opendir", opendirSync);
  replaceCall(promises, "opendir", (/** @type {any[]} */ ...all) =>
    (isPlaying() ? promiseLater(given, "opendir", () => opendirSync(...all)) : opendir(...all)));
  putMethod(given, "read");
  putMethod(given, "close");
  /** @this {any} */
  const entries = async function* () {
    try {
      for (let entry = await this.read(); entry !== null; entry = await this.read()) yield entry;
    } finally {
      await this.close();
    }
  };
  put(prototype, "entries", entries);
  put(prototype, Symbol.asyncIterator, entries);
}
