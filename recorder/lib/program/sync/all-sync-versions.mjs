// All synchronous versions: those that need node's inside, too.

import { putPacking } from "./packing.mjs";
import { putBlobs } from "./sync-blobs.mjs";
import { putSubtle } from "./sync-subtle.mjs";
import { putSyncVersions } from "./sync-versions.mjs";

/** @param {import("./sync-calls.mjs").SyncVersionContext} given */
export function putAllSyncVersions(given) {
  putSyncVersions(given);
  putBlobs(given);
  putSubtle(given);
  putPacking(given);
}
