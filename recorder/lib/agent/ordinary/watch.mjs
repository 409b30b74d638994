// Watches a realm: typed arrays and DataViews on recorded buffers report each ordinary read and write. The code knows
// nothing about it. What would pass unseen ends the run.

import buffer from "node:buffer";
import { syncBuiltinESMExports } from "node:module";
import threads from "node:worker_threads";
import { watchArrays } from "./arrays.mjs";
import { watchNodeBuffer } from "./buffer.mjs";
import { learnClones, watchCloning } from "./clone.mjs";
import { begin } from "./context.mjs";
import { watchDataView } from "./data-view.mjs";
import { watchInspection } from "./inspect.mjs";
import { watchNatives } from "./natives.mjs";
import { watchBuffers } from "./shared.mjs";
import { watchThreads } from "./given-to-threads.mjs";

/**
 * Patches this realm's globals and node's modules. It is called once, before any of the agents' code is loaded.
 * @param {import("./context.mjs").Watching} watching
 */
export function watchOrdinary(watching) {
  watchRealm(watching);
  watchThreads(threads);
  syncBuiltinESMExports();
}

/**
 * The same, except for what gives memory to other threads.
 * @param {import("./context.mjs").Watching} watching
 */
export function watchRealm(watching) {
  begin(watching);
  watchArrays();
  watchDataView();
  watchBuffers();
  watchNodeBuffer(buffer);
  watchCloning();
  watchInspection();
  watchNatives();
}

/**
 * Patches what gives recorded memory to other threads, in a realm whose arrays are the engine's own.
 * @param {import("./context.mjs").Watching} watching
 */
export function watchWaysOut(watching) {
  begin(watching);
  learnClones();
  watchThreads(threads);
  syncBuiltinESMExports();
}
