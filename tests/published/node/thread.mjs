// The first file of a thread: node's own, with what stands in for the rest of node.

import { pathToFileURL } from "node:url";
import { setTimeout } from "node:timers/promises";
import { getEnvironmentData } from "node:worker_threads";
import { systemOf } from "./directory.mjs";
import { nodeOf } from "./threads.mjs";

/** What a program gets by `node:worker_threads`. */
export const program = {};

const LOADER = "internal/modules/esm/worker";
const LOADER_FILES = [LOADER, "internal/modules/esm/hooks", "internal/modules/esm/shared_constants"];
const nothing = () => {};

/** A user's hook, which takes a while, and its file. */
const USERS = "file:///hooks.mjs";
const users = {
  resolve: async (name) => {
    await setTimeout(2);
    return { url: `file:///${name}.mjs`, shortCircuit: true };
  },
};

/**
 * The hooks of the loader's thread, as node 20 has them. Node 24 makes them itself, of the files that an option names.
 */
async function initializeHooks() {
  const { Hooks } = require("internal/modules/esm/hooks");
  const hooks = new Hooks();
  hooks.addCustomLoader(USERS, users);
  return { hooks, preloadScripts: hooks.initializeGlobalPreload() };
}

const modules = {
  "internal/process/pre_execution": {
    prepareWorkerThreadExecution: nothing, setupUserModules: nothing, markBootstrapComplete: nothing,
    initializeModuleLoaders: nothing, loadPreloadModules: nothing, initializeFrozenIntrinsics: nothing,
  },
  "internal/options": { getOptionValue: (name) => (name === "--experimental-loader" ? [USERS] : undefined) },
  "internal/buffer": { isMarkedAsUntransferable: () => false },
  "internal/process/execution": { hasUncaughtExceptionCaptureCallback: () => false },
  "internal/modules/esm/loader": {
    isCascadedLoaderInitialized: () => false, getOrInitializeCascadedLoader: () => ({ import: () => users }),
  },
  "internal/modules/esm/load": {},
  "internal/modules/esm/resolve": { throwIfInvalidParentURL: nothing },
  "internal/validators": { validateString: nothing, validateObject: nothing },
  "internal/modules/esm/utils": { loaderWorkerId: LOADER, initializeHooks, getDefaultConditions: () => [] },
  "internal/modules/cjs/loader": { Module: { runMain: (path) => import(pathToFileURL(path).href) } },
  "worker_threads": program,
};

const word = getEnvironmentData("directory");
const own = { argv: [], ...(word && systemOf(word)) };
export const { require, process } = nodeOf({ files: LOADER_FILES, modules, own });
require("internal/main/worker_thread");
