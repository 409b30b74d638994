// Node's module mocks: main mocks a module and restores it. In node 20 a thread of node's loader acknowledges both.
// Node 24 needs no thread for that.

import { createRequire } from "node:module";
import * as url from "node:url";
import { Worker } from "node:worker_threads";
import { internals } from "./internals.mjs";

const nothing = () => {};

/** In place of node's loader: it starts a thread that has the loader's half. */
const loader = {
  register(name, _, data, transferList) {
    new Worker(new URL("mocks-loader.mjs", import.meta.url), { workerData: { name, data }, transferList }).unref();
  },
  resolveSync: () => ({ format: "module", url: "data:text/javascript,export default 1" }),
};

/** The place from which a module is mocked. */
const caller = { getFileName: () => import.meta.url };

const { MockTracker } = internals({
  files: ["internal/test_runner/mock/mock", "internal/test_runner/mock/loader"],
  modules: {
    "internal/modules/esm/loader": { getOrInitializeCascadedLoader: () => loader },
    "internal/modules/customization_hooks": { registerHooks: nothing },
    "internal/modules/cjs/loader": { Module: createRequire(import.meta.url)("node:module") },
    "internal/options": { getOptionValue: () => true },
    "internal/url": { ...url, toPathIfFileURL: (path) => path, URLParse: (text) => new URL(text) },
    "internal/util": {
      deprecateProperty: () => nothing, emitExperimentalWarning: nothing,
      getStructuredStack: () => Array(4).fill(caller),
      kEmptyObject: {},
    },
    "internal/validators": {
      validateBoolean: nothing, validateObject: nothing, validateOneOf: nothing, validateString: nothing,
    },
    "test": { mock: {} },
  },
})("internal/test_runner/mock/mock");

new MockTracker().module("anything", { namedExports: { one: 1 } }).restore();
