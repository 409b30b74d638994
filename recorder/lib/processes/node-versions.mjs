// What differs between versions of node. Nothing else compares versions. `LATER` has what later ones have for programs
// besides what `node-api-table.mjs` in `lib/program` has of node 20: the first of the tried versions with a name is
// given. `SINCE` has which names of the table in `lib/agent` node 20 lacks.

import process from "node:process";

/**
 * @typedef {"simulated" | "harmless" | "real" | "refused"} ApiPolicy what becomes of an export of node's in a program
 */
/** @typedef {Partial<Record<ApiPolicy, string>>} ExportNames of exports, by kind */

/**
 * @typedef {object} Version
 * @property {number} from the major version of node
 * @property {Readonly<Record<string, ExportNames>>} modules
 * @property {Readonly<Record<string, ExportNames>>} schemes modules that are only there with `node:`
 * @property {ExportNames} globals
 * @property {Readonly<Record<string, string>>} methods that are refused, as in `node-api-table.mjs`
 */

/** @type {readonly Version[]} */
export const LATER = Object.freeze([{
  from: 24,
  modules: {
    crypto: {
      simulated: "argon2 decapsulate encapsulate randomUUIDv7",
      harmless: "argon2Sync createMac getMacs parsePKCS12",
    },
    dns: { real: "resolveTlsa" },
    "dns/promises": { real: "resolveTlsa" },
    fs: { simulated: "glob", harmless: "globSync mkdtempDisposableSync", refused: "Utf8Stream" },
    "fs/promises": { simulated: "glob", refused: "mkdtempDisposable" },
    http: { harmless: "CloseEvent MessageEvent", refused: "WebSocket setGlobalProxyFromEnv" },
    inspector: { refused: "NetworkResources DOMStorage" },
    "inspector/promises": { refused: "NetworkResources DOMStorage" },
    module: {
      harmless: `stripTypeScriptTypes constants enableCompileCache flushCompileCache getCompileCacheDir findPackageJSON
        getSourceMapsSupport setSourceMapsSupport`,
      refused: "registerHooks",
    },
    net: { refused: "_TransferredBoundSocket BoundSocket" },
    perf_hooks: {
      harmless: "importHistogram timerify", refused: "createSlidingWindowHistogram eventLoopUtilization",
    },
    process: { harmless: "finalization threadCpuUsage", refused: "execve ref unref" },
    "stream/web": { harmless: "ReadableStreamTee" },
    tls: { harmless: "getCACertificates getCertificateCompressionAlgorithms setDefaultCACertificates" },
    v8: { harmless: "getCppHeapStatistics isStringOneByteRepresentation", refused: "startCpuProfile" },
    worker_threads: {
      simulated: "locks markAsUncloneable threadName",
      harmless: "isInternalThread isMarkedAsUntransferable",
    },
    zlib: {
      simulated: "zstdCompress zstdDecompress ZstdCompress ZstdDecompress createZstdCompress createZstdDecompress",
      harmless: "zstdCompressSync zstdDecompressSync",
    },
  },
  schemes: {
    "node:test": { simulated: "expectFailure getTestContext snapshot assert" },
    "node:sqlite": { harmless: "DatabaseSync Session StatementSync constants", refused: "backup" },
  },
  globals: {
    harmless: `AsyncDisposableStack CloseEvent DisposableStack Float16Array Iterator Navigator SuppressedError
      URLPattern navigator`,
    refused: "WebSocket",
  },
  methods: {
    "SubtleCrypto.prototype": "decapsulateBits decapsulateKey encapsulateBits encapsulateKey getPublicKey",
  },
}]);

/** What functions of both do otherwise, by the version from which they do so. */
const OTHERWISE = Object.freeze({
  /** `fs.stat` and `fs.promises.stat` take the option `throwIfNoEntry`. */
  statWithoutEntry: 24,
  /** A stream of `zlib` throws if it is reset before the result of a write has come. */
  resetWhileBusy: 24,
  /** Listeners of `exit` get the code of a top-level await that never settles, and not the code before it. */
  unsettledAtExit: 24,
  /** An atomic access of WebAssembly that is neither aligned nor within the memory traps as one that isn't aligned. */
  wasmAlignsFirst: 24,
});

/** The versions of node on which programs were tried. */
export const TRIED = Object.freeze(["20.20", "24.22"]);

/** @returns {string | undefined} this node's version, if programs weren't tried on it */
export function untriedVersion() {
  const version = process.version.slice(1);
  return TRIED.some((tried) => version.startsWith(`${tried}.`)) ? undefined : version;
}

/** @type {number} */
const major = Number(/^v(\d+)\./.exec(process.version)?.[1]);

/** @param {number} from @returns {boolean} whether this node is that version, or a later one */
export const isSince = (from) => major >= from;

/** @param {keyof typeof OTHERWISE} what @returns {boolean} whether this node does so */
export const doesOtherwise = (what) => isSince(OTHERWISE[what]);

/**
 * Adds the names of later versions to those of the first one.
 * @param {Readonly<Record<string, any>>} first
 * @param {(version: Version) => Readonly<Record<string, any>>} ofVersion
 * @returns {Readonly<Record<string, any>>} a row is a text, or texts by kind; a word for a whole module stays
 */
export function withLater(first, ofVersion) {
  const all = { ...first };
  for (const version of LATER) {
    for (const [name, more] of Object.entries(ofVersion(version))) all[name] = joined(all[name], more);
  }
  return Object.freeze(all);
}

/** @param {any} first @param {any} more @returns {any} */
function joined(first, more) {
  if (first === undefined) return more;
  if (typeof more === "string") return `${first} ${more}`;
  return withNames(first, more);
}

/** @param {any} first @param {ExportNames} more */
function withNames(first, more) {
  const names = { ...first };
  for (const kind of /** @type {ApiPolicy[]} */ (Object.keys(more))) names[kind] = `${names[kind] ?? ""} ${more[kind]}`;
  return names;
}

/**
 * What node 20 lacks of shared memory, threads, time and globals, by the version from which node has it. A name without
 * an owner is a global.
 * @type {Readonly<Record<string, string>>}
 */
const SINCE = Object.freeze({
  "21.0": `navigator Navigator navigator.constructor navigator.hardwareConcurrency navigator.language
    navigator.languages navigator.platform navigator.userAgent ArrayBuffer.prototype.detached
    ArrayBuffer.prototype.transfer ArrayBuffer.prototype.transferToFixedLength
    worker_threads.isMarkedAsUntransferable`,
  "22.0": "Iterator WebSocket Promise.withResolvers",
  "23.0": "CloseEvent Promise.try worker_threads.markAsUncloneable",
  "23.7": "worker_threads.isInternalThread",
  "24.0": `Float16Array DataView.prototype.getFloat16 DataView.prototype.setFloat16 Atomics.pause DisposableStack
    AsyncDisposableStack SuppressedError URLPattern Worker.prototype.getHeapStatistics`,
  "24.5": "worker_threads.locks navigator.locks",
  "24.6": "worker_threads.threadName Worker.prototype.threadName Worker.prototype.cpuUsage",
  "24.8": "Worker.prototype.startCpuProfile",
  "24.9": "Worker.prototype.startHeapProfile",
  "24.22": `WebAssembly.JSTag WebAssembly.promising WebAssembly.SuspendError WebAssembly.Suspending perf_hooks.timerify
    perf_hooks.eventLoopUtilization perf_hooks.createSlidingWindowHistogram perf_hooks.importHistogram`,
});

/** @param {string} version @returns {number} a greater one for a later version */
function orderOf(version) {
  const [major, minor] = version.split(".").map(Number);
  return major * 1_000 + minor;
}

/** @returns {string[]} the names of `SINCE` that this node lacks */
export function missingNames() {
  const here = orderOf(process.versions.node);
  const later = Object.keys(SINCE).filter((version) => orderOf(version) > here);
  return later.flatMap((version) => SINCE[version].trim().split(/\s+/));
}
