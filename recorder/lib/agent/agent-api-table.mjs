// What an engine and node have for shared memory, threads and time, and all globals: what becomes of each in a module
// of agents. `node-versions.mjs` says which of them node 20 lacks. A test looks on each version whether something has
// no row.

import { missingNames } from "../processes/node-versions.mjs";

/**
 * What becomes of a name:
 * - watched: recorded memory may be given to it or made by it, and its accesses are seen
 * - simulated: done by the board, by the run's time or by the seed
 * - later: it fails the run if something is left to be done
 * - machine: the machine's own clock, chance or processors
 * - harmless: the engine's or node's own, and of no use for the above
 * - refused: what it does with memory, threads or messages fails the run, with its name and line
 * @typedef {"watched" | "simulated" | "later" | "machine" | "harmless" | "refused"} AgentApiPolicy
 */

/** @type {Readonly<Record<string, Partial<Record<AgentApiPolicy, string>>>>} by whose they are; the names by kind */
export const SURFACE = Object.freeze({
  globalThis: {
    watched: `Int8Array Uint8Array Uint8ClampedArray Int16Array Uint16Array Int32Array Uint32Array Float16Array
      Float32Array Float64Array BigInt64Array BigUint64Array DataView Buffer SharedArrayBuffer ArrayBuffer
      structuredClone TextDecoder TextEncoder WebAssembly Blob File`,
    simulated: "Atomics Date Math performance crypto process console",
    later: "setTimeout setInterval setImmediate queueMicrotask fetch Promise WebSocket",
    machine: "Intl",
    harmless: `AbortController AbortSignal AggregateError Array AsyncDisposableStack atob BigInt Boolean btoa
      ByteLengthQueuingStrategy clearImmediate clearInterval clearTimeout CloseEvent CompressionStream
      CountQueuingStrategy Crypto CryptoKey CustomEvent decodeURI decodeURIComponent DecompressionStream
      DisposableStack DOMException encodeURI encodeURIComponent Error escape eval EvalError Event EventTarget
      FinalizationRegistry FormData Function global globalThis Headers Infinity isFinite isNaN Iterator JSON Map
      MessageEvent NaN Navigator Number Object parseFloat parseInt Performance PerformanceEntry PerformanceMeasure
      PerformanceObserver PerformanceObserverEntryList PerformanceResourceTiming Proxy RangeError
      ReadableByteStreamController ReadableStream ReadableStreamBYOBReader ReadableStreamBYOBRequest
      ReadableStreamDefaultController ReadableStreamDefaultReader ReferenceError Reflect RegExp Request Response Set
      String SubtleCrypto SuppressedError Symbol SyntaxError TextDecoderStream TextEncoderStream TransformStream
      TransformStreamDefaultController TypeError undefined unescape URIError URL URLPattern URLSearchParams WeakMap
      WeakRef WeakSet WritableStream WritableStreamDefaultController WritableStreamDefaultWriter`,
    refused: "MessageChannel MessagePort BroadcastChannel navigator PerformanceMark",
  },
  Atomics: {
    simulated: "add and compareExchange exchange load notify or store sub wait xor",
    harmless: "isLockFree pause",
    refused: "waitAsync",
  },
  SharedArrayBuffer: { harmless: "length name prototype" },
  "SharedArrayBuffer.prototype": {
    watched: "slice grow",
    harmless: "byteLength constructor growable maxByteLength",
  },
  ArrayBuffer: {
    watched: "isView",
    harmless: "length name prototype",
  },
  "ArrayBuffer.prototype": {
    harmless: "byteLength constructor detached maxByteLength resizable resize slice transfer transferToFixedLength",
  },
  TypedArray: {
    watched: "from of",
    harmless: "length name prototype",
  },
  "TypedArray.prototype": {
    watched: `at buffer byteLength byteOffset copyWithin entries every fill filter find findIndex findLast findLastIndex
      forEach includes indexOf join keys lastIndexOf length map reduce reduceRight reverse set slice some sort
      subarray toLocaleString toReversed toSorted toString values with`,
    harmless: "constructor",
  },
  Uint8Array: { harmless: "BYTES_PER_ELEMENT length name prototype" },
  "Uint8Array.prototype": { harmless: "BYTES_PER_ELEMENT constructor" },
  "DataView.prototype": {
    watched: `buffer byteLength byteOffset getBigInt64 getBigUint64 getFloat16 getFloat32 getFloat64 getInt16 getInt32
      getInt8 getUint16 getUint32 getUint8 setBigInt64 setBigUint64 setFloat16 setFloat32 setFloat64 setInt16
      setInt32 setInt8 setUint16 setUint32 setUint8`,
    harmless: "constructor",
  },
  WebAssembly: {
    watched: "Module compile instantiate validate",
    harmless: `CompileError compileStreaming Exception Global Instance instantiateStreaming JSTag LinkError promising
      RuntimeError SuspendError Suspending Table Tag`,
    refused: "Memory",
  },
  "WebAssembly.Memory.prototype": { harmless: "buffer constructor grow" },
  Promise: { harmless: "all allSettled any length name prototype race reject resolve try withResolvers" },
  Date: {
    simulated: "now",
    harmless: "length name parse prototype UTC",
  },
  performance: {
    watched: "mark measure",
    simulated: "now timeOrigin",
    machine: "eventLoopUtilization timerify toJSON nodeTiming",
    harmless: `clearMarks clearMeasures clearResourceTimings constructor getEntries getEntriesByName getEntriesByType
      markResourceTiming onresourcetimingbufferfull setResourceTimingBufferSize`,
  },
  perf_hooks: {
    watched: "PerformanceMark",
    simulated: "performance",
    machine: "eventLoopUtilization timerify monitorEventLoopDelay",
    harmless: `constants createHistogram createSlidingWindowHistogram importHistogram Performance PerformanceEntry
      PerformanceMeasure PerformanceObserver PerformanceObserverEntryList PerformanceResourceTiming`,
  },
  navigator: {
    machine: "hardwareConcurrency",
    harmless: "constructor language languages platform userAgent",
    refused: "locks",
  },
  worker_threads: {
    harmless: `getEnvironmentData isInternalThread isMainThread isMarkedAsUntransferable markAsUncloneable
      markAsUntransferable moveMessagePortToContext receiveMessageOnPort resourceLimits SHARE_ENV threadId
      threadName workerData`,
    refused: `locks MessagePort MessageChannel BroadcastChannel Worker parentPort postMessageToThread
      setEnvironmentData`,
  },
  "MessagePort.prototype": {
    harmless: "close constructor hasRef ref start unref",
    refused: "postMessage onmessage onmessageerror",
  },
  "Worker.prototype": {
    harmless: `constructor cpuUsage getHeapSnapshot getHeapStatistics ref resourceLimits startCpuProfile
      startHeapProfile stderr stdin stdout terminate threadId threadName unref`,
    refused: "postMessage",
  },
});

/** @param {string} names @returns {string[]} */
const listed = (names) => names.trim().split(/\s+/);

/** @returns {string[]} all names that this version of node has, each with its owner if that isn't the global object */
export function namesHere() {
  const missing = missingNames();
  const all = Object.entries(SURFACE).flatMap(([owner, kinds]) => {
    const start = owner === "globalThis" ? "" : `${owner}.`;
    return Object.values(kinds).flatMap(listed).map((name) => `${start}${name}`);
  });
  return all.filter((name) => !missing.includes(name));
}
