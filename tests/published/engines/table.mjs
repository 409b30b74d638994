// Engines' own tests of several threads: where they come from, how they are tried, and which don't pass, and why.

import { OF_VERSIONS } from "./node-tests.mjs";
import { TEST262 } from "./test262.mjs";
import { pageOf } from "./wpt.mjs";

/**
 * @typedef {object} Known a test that doesn't pass, and its reason
 * @property {RegExp} says what the recorder says about each run that fails
 * @property {string} why
 *
 * @typedef {object} Family
 * @property {string} name
 * @property {import("../table.mjs").Source[]} sources
 * @property {(test: string) => { program: URL, args?: string[] }} programOf
 * @property {object} options of `explore`
 * @property {string[]} passing
 * @property {Record<string, Known>} others
 * @property {Record<string, number>} [seeds] of tests that take long
 * @property {string[]} [fresh] tests that leave in a thread what can't be taken back
 * @property {number} [version] of node: they are tried by that one alone
 */

const ATOMICS = "js/src/tests/test262/built-ins/Atomics";
const WPT = "testing/web-platform/tests";
const FORMALISM = "html/webappapis/scripting/processing-model-2/integration-with-the-javascript-agent-formalism";
const SHARED = "html/infrastructure/safe-passing-of-structured-data/shared-array-buffers";

/** @type {import("../table.mjs").Source} */
const FIREFOX = {
  kind: "source", folder: "firefox", name: "firefox-esr/bookworm", isLarge: true,
  files: [
    "js/src/tests/shell.js", "js/src/tests/shell/*.js", "js/src/tests/test262/shell.js",
    "js/src/tests/test262/built-ins/shell.js", `${ATOMICS}/shell.js`,
    ...["notify", "wait", "waitAsync"].map((name) => `${ATOMICS}/${name}/*.js`), "js/src/tests/non262/shell.js",
    "js/src/tests/non262/TypedArray/*.js", "js/src/jit-test/lib/prologue.js", "js/src/jit-test/tests/atomics/*.js",
    "js/src/jit-test/tests/sharedbuf/*.js", "js/src/jit-test/tests/wasm/atomicity.js",
    `${WPT}/resources/testharness.js`, `${WPT}/workers/*.html`, `${WPT}/workers/support/*.js`, `${WPT}/${SHARED}/*`,
    `${WPT}/${FORMALISM}/*`,
  ],
};

/** @type {import("../table.mjs").Source} */
const NODEJS = {
  kind: "source", folder: "nodejs", name: "nodejs/bookworm",
  files: [
    "test/common/*.js", "test/fixtures/shared-memory.wasm", "test/node-api/test_worker_terminate/*.js",
    ...["async-hooks-worker-asyncfn-terminate-4", "inspector-connect-main-thread", "trace-atomics-wait", "worker-*"]
      .map((name) => `test/parallel/test-${name}.js`),
  ],
};

/** A program of this folder, whose argument is the test. @param {string} main @returns {Family["programOf"]} */
const by = (main) => (test) => ({ program: new URL(main, import.meta.url), args: [test] });

/** @param {string} name @returns {string} the path of one of node's tests */
const parallel = (name) => `parallel/test-${name}.js`;

/** @type {Family} */
const OF_TEST262 = {
  name: "test262", sources: [FIREFOX], programOf: by("spidermonkey.mjs"), options: { timeouts: 0 }, passing: TEST262,
  others: {},
};

/** @type {Family} */
const OF_SPIDERMONKEY = {
  name: "spidermonkey", sources: [FIREFOX], programOf: by("spidermonkey.mjs"),
  // These tests look at what ordinary accesses find that nothing orders.
  options: { timeouts: 0, races: "allow" },
  passing: [
    "jit-test/tests/atomics/bug1966657-promise-resolution-after-throw.js", "jit-test/tests/atomics/pause-multi.js",
    ...["bytelength", "dataview-bytelength", "typedarray-bytelength", "typedarray-length"].flatMap((name) =>
      ["", "-with-non-growable-write"].map((more) =>
        `jit-test/tests/sharedbuf/growable-sab-memory-barrier-${name}${more}.js`)),
    "jit-test/tests/sharedbuf/resized-out-of-bounds-to-in-bounds-index-over-mailbox.js",
    "tests/non262/TypedArray/sort_modifications_concurrent_radixsort.js",
  ],
  others: {
    "jit-test/tests/atomics/mutual-exclusion.js": {
      says: /^more than 100000 moves/, why: "it makes 1.5 million calls, and a run has at most 100,000 moves",
    },
    "jit-test/tests/wasm/atomicity.js": {
      says: /wasmTextToBinary/, why: "its code is WebAssembly's text, which only the shell compiles",
    },
    "tests/non262/TypedArray/sort_modifications_concurrent.js": {
      says: /started a Worker more than the 16 threads/, why: "it starts 60 threads, and a run has at most 16",
    },
    "tests/shell/futex.js": {
      says: /nothing interrupts a thread/,
      why: "its last part interrupts a thread that sleeps, which only the shell can",
    },
  },
  seeds: {
    "jit-test/tests/atomics/mutual-exclusion.js": 1, "jit-test/tests/atomics/pause-multi.js": 2,
    "tests/non262/TypedArray/sort_modifications_concurrent_radixsort.js": 4,
  },
};

/** Node 20 has an option that node 24 doesn't have. Without it, the test of this option fails. */
const TRACE = parallel("trace-atomics-wait");
const hasTrace = process.allowedNodeEnvironmentFlags.has("--trace-atomics-wait");

/** @type {Family} */
const OF_NODE = {
  name: "node-tests", sources: [NODEJS], programOf: (test) => by("node.mjs")(`nodejs/test/${test}`), options: {},
  passing: [
    "async-hooks-worker-asyncfn-terminate-4", "worker-beforeexit-throw-exit", "worker-broadcastchannel",
    "worker-http2-generic-streams-terminate",
    "worker-message-channel-sharedarraybuffer", "worker-message-port-multiple-sharedarraybuffers",
    "worker-message-port-wasm-threads",
    "worker-nested-on-process-exit", "worker-sharedarraybuffer-from-worker-thread", "worker-terminate-source-map",
    "worker-unref-from-message-during-exit", "worker-voluntarily-exit-followed-by-addition",
    "worker-voluntarily-exit-followed-by-throw", "worker-workerdata-sharedarraybuffer",
  ].map(parallel).concat(hasTrace ? [TRACE] : []),
  others: {
    ...(hasTrace ? {} : { [TRACE]: { says: /9 !== 0/, why: "this node has no option --trace-atomics-wait" } }),
    [parallel("inspector-connect-main-thread")]: { says: /inspector\.Session/, why: "the inspector is refused" },
    [parallel("worker-process-cwd")]: {
      says: /process\.chdir/, why: "the directory is the process's, and a thread that stands for main can't change it",
    },
    [parallel("worker-stack-overflow-stack-size")]: {
      says: /v8\.setFlagsFromString/, why: "the engine's flags are the process's, and to change them is refused",
    },
    "node-api/test_worker_terminate/test.js": {
      says: /Cannot find module/, why: "it is about an addon in C, which has to be compiled first",
    },
  },
  fresh: [parallel("worker-terminate-source-map")],
};

/** @type {Family} */
const OF_WPT = {
  name: "wpt", sources: [FIREFOX], programOf: (test) => ({ program: pageOf(test) }),
  options: { timeouts: 0, web: true },
  passing: [
    `${FORMALISM}/atomics-wait-async.https.any.js`, `${SHARED}/window-messagechannel-success.https.html`,
    "workers/postMessage_block.https.html",
  ],
  others: {
    [`${SHARED}/nested-worker-success.https.html`]: {
      says: /has nothing to do/,
      why: "its worker loads a script by a path from the root of a server, and here are files alone",
    },
    "workers/Worker-creation-happens-in-parallel.https.html": {
      says: /reads Uint8_b0\[0\].* writes Uint8_b0\[0\]/,
      why: "it passes, but looks by ordinary reads for what another thread writes: that is unordered",
    },
    "workers/Worker-postMessage-happens-in-parallel.https.html": {
      says: /reads the same bytes again and again/,
      why: "it waits in a loop of ordinary reads, which by the standard need never find what another thread writes",
    },
  },
};

/** @type {readonly Family[]} */
export const FAMILIES = Object.freeze([OF_TEST262, OF_SPIDERMONKEY, OF_NODE, ...OF_VERSIONS, OF_WPT]);
