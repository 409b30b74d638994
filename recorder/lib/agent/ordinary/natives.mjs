// Functions of node and the engine that need an array of the engine's, by module: what is done when recorded memory is
// given to them. What isn't named here can have no use of it, or ends the run.

import assert from "node:assert";
import childProcess from "node:child_process";
import crypto from "node:crypto";
import fs from "node:fs";
import perfHooks from "node:perf_hooks";
import stream from "node:stream";
import stringDecoder from "node:string_decoder";
import util from "node:util";
import v8 from "node:v8";
import vm from "node:vm";
import zlib from "node:zlib";
import {
  apply, getOwnPropertyDescriptor, is, isMadeStandIn, ownKeys, put, tagOf, uncurried,
} from "../../primordials.mjs";
import { refused } from "./context.mjs";
import {
  constructing, copying, copyingGiven, looking, madePrivate, refusing, refusingGiven, writing,
} from "./guards.mjs";
import { methodOf, replace, replaceEach, replaceNeeded } from "./patch.mjs";
import { WHOLLY } from "./reach.mjs";
import { report, unwrapped, watchedOf } from "./watched.mjs";

/** @typedef {import("./patch.mjs").StandInMaker} StandInMaker */

const startsWith = uncurried(String.prototype.startsWith);
const EngineBytes = Uint8Array;
const setBytes = uncurried(EngineBytes.prototype.set);
const subarray = uncurried(EngineBytes.prototype.subarray);

/** @type {Record<string, string[]>} what these read, they read before they return */
const READING = {
  fs: ["writeSync", "writevSync", "writeFileSync", "appendFileSync"],
  crypto: [
    "createHmac", "createCipheriv", "createDecipheriv", "createSecretKey", "createPrivateKey", "createPublicKey",
    "sign", "verify", "pbkdf2Sync", "scryptSync", "hkdfSync", "timingSafeEqual", "publicEncrypt", "publicDecrypt",
    "privateEncrypt", "privateDecrypt", "diffieHellman", "createDiffieHellman", "checkPrimeSync", "hash",
  ],
  zlib: [
    "deflateSync", "inflateSync", "deflateRawSync", "inflateRawSync", "gzipSync", "gunzipSync", "unzipSync",
    "brotliCompressSync", "brotliDecompressSync", "zstdCompressSync", "zstdDecompressSync", "crc32",
  ],
  v8: ["serialize", "deserialize"],
  assert: [
    "deepEqual", "deepStrictEqual", "notDeepEqual", "notDeepStrictEqual", "partialDeepStrictEqual", "throws",
    "doesNotThrow", "ifError", "fail",
  ],
};

/** @type {Record<string, string[]>} these write */
const WRITING = {
  fs: ["readSync", "readvSync"],
  crypto: ["getRandomValues", "randomFillSync"],
};

/** @type {(owner: object, lists?: (string[] | undefined)[]) => string[]} its functions' names that no list has */
const otherFunctions = (owner, lists = []) => /** @type {string[]} */ (ownKeys(owner).filter((key) =>
  typeof key === "string" && /^[a-z]/.test(key) && !lists.some((list) => list?.includes(key))));

/**
 * A module whose functions may go on after they have returned: those that aren't named end the run.
 * @param {string} word its name
 * @param {object} module
 */
function guardModule(word, module) {
  const lists = [READING[word], WRITING[word]];
  replaceEach(module, otherFunctions(module, lists), (engine, name) => refusing(`${word}.${name}`)(engine));
  if (READING[word] !== undefined) replaceEach(module, READING[word], copying);
  if (WRITING[word] !== undefined) replaceEach(module, WRITING[word], writing);
}

/**
 * The methods of classes that a module exports: what they are given is read at once.
 * @param {Record<string, any>} module
 */
function guardClasses(module) {
  const names = Object.keys(module).filter((name) => /^[A-Z]/.test(name) && typeof module[name] === "function");
  for (const name of names) {
    const { prototype } = module[name];
    replaceEach(module[name], otherFunctions(module[name], [["super_"]]), copying);
    if (prototype !== undefined) replaceEach(prototype, otherFunctions(prototype, [["constructor"]]), copying);
  }
}

function watchCrypto() {
  guardModule("crypto", crypto);
  guardClasses(crypto);
  put(crypto, "X509Certificate", constructing(crypto.X509Certificate, madePrivate));
  const { webcrypto } = crypto;
  const { subtle } = webcrypto;
  // If the numbers are drawn from the seed, the object has a function of its own.
  replace(webcrypto, "getRandomValues", writing);
  replace(Object.getPrototypeOf(webcrypto), "getRandomValues", writing);
  const prototype = Object.getPrototypeOf(subtle);
  replaceEach(prototype, otherFunctions(prototype), (engine, name) => refusing(`crypto.subtle.${name}`)(engine));
}

function watchStreams() {
  const { Writable, Duplex, Readable } = stream;
  replaceEach(Writable.prototype, ["write", "end"], copyingGiven);
  replaceEach(Duplex.prototype, ["write", "end"], copyingGiven);
  replaceEach(Readable.prototype, ["push", "unshift"], copyingGiven);
  replaceEach(stringDecoder.StringDecoder.prototype, ["write", "end"], copying);
}

/**
 * Whether an assertion holds is known without a look at elements; one that fails shows them.
 * @type {Record<string, (one: unknown, other: unknown) => boolean>}
 */
const HOLDS = {
  equal: (one, other) => one == other || (one !== one && other !== other),
  notEqual: (one, other) => !HOLDS.equal(one, other),
  strictEqual: is,
  notStrictEqual: (one, other) => !is(one, other),
};

function watchAssertions() {
  put(assert, "AssertionError", constructing(assert.AssertionError, madePrivate));
  put(assert.strict, "AssertionError", assert.AssertionError);
  for (const module of [assert, assert.strict]) {
    replaceEach(module, ownKeys(module).filter((name) => typeof name === "string"), (engine) => {
      if (READING.assert.includes(engine.name)) return copying(engine);
      const holds = HOLDS[engine.name];
      if (holds === undefined) return engine;
      return (/** @type {unknown[]} */ ...given) => {
        if (given.length >= 2 && holds(given[0], given[1])) return undefined;
        return apply(engine, undefined, madePrivate(given));
      };
    });
  }
}

/** @type {StandInMaker} a try in a private array shows how many bytes a text takes, so that those alone are reported */
const encodingInto = (engine) => methodOf((self, given) => {
  const text = given[0];
  const target = given[1];
  const watched = watchedOf(target);
  const isBytes = watched !== undefined && tagOf(watched.real) === "Uint8Array";
  if (!isBytes) return apply(engine, self, [text, unwrapped(target)]);
  const bytes = new EngineBytes(watched.length);
  const answer = apply(engine, self, [text, bytes]);
  const { written } = answer;
  report(watched, 0, written, true);
  setBytes(watched.real, subarray(bytes, 0, written), 0);
  return answer;
}, engine);

function watchTexts() {
  replaceNeeded(TextDecoder.prototype, "decode", copying);
  replaceNeeded(TextEncoder.prototype, "encodeInto", encodingInto);
}

function watchWebAssembly() {
  replaceEach(WebAssembly, ["validate", "compile", "instantiate"], copying);
  put(WebAssembly, "Module", constructing(WebAssembly.Module, madePrivate));
}

function watchValues() {
  guardModule("v8", v8);
  replaceEach(v8.Serializer.prototype, ["writeValue", "writeRawBytes"], copying);
  put(v8, "Deserializer", constructing(v8.Deserializer, madePrivate));
  put(v8, "DefaultDeserializer", constructing(v8.DefaultDeserializer, madePrivate));
  replace(util, "isDeepStrictEqual", copying);
  replaceEach(util.types, ownKeys(util.types).filter((name) => startsWith(name, "is")), looking);
  replace(util.types, "isProxy", (looks) =>
    methodOf((self, given) => !isMadeStandIn(given[0]) && apply(looks, self, given), looks));
}

/** A context has typed arrays of its own. Code that was compiled before may lie in recorded memory. */
function watchContexts() {
  const { Script } = vm;
  const makers = [
    { owner: vm, name: "createContext" }, { owner: vm, name: "runInNewContext" },
    { owner: Script.prototype, name: "runInNewContext" },
  ];
  for (const { owner, name } of makers) {
    replaceNeeded(owner, name, () => () => refused(`vm.${name} makes a context with typed arrays of its own`));
  }
  put(vm, "Script", constructing(Script, refusingGiven("a vm.Script")));
  replaceNeeded(vm, "compileFunction", refusing("vm.compileFunction"));
}

/** What marks a time may hold a clone of a value. */
function watchMarks() {
  /** @type {(engine: Function, name: string) => Function} */
  const guarded = (engine, name) => refusing(`performance.${name}`, WHOLLY, true)(engine);
  replaceEach(Object.getPrototypeOf(performance), ["mark", "measure"], guarded);
  const StandIn = constructing(perfHooks.PerformanceMark, refusingGiven("a PerformanceMark"));
  put(perfHooks, "PerformanceMark", StandIn);
  put(globalThis, "PerformanceMark", StandIn);
}

/**
 * Classes that node loads when they are asked for. Where they are no getters, a look at them would load them in each
 * thread, and they needn't be refused: they take an array on shared memory as a text, which reads it at once.
 */
function watchFetching() {
  replace(globalThis, "fetch", refusing("fetch"));
  if (getOwnPropertyDescriptor(globalThis, "BroadcastChannel")?.get === undefined) return;
  for (const name of ["Request", "Response", "WebSocket"]) {
    const found = getOwnPropertyDescriptor(globalThis, name);
    if (found?.get === undefined) continue;
    const { get } = found;
    /** @type {Function | undefined} */
    let made;
    found.get = () => {
      if (made === undefined) made = constructing(apply(get, globalThis, []), refusingGiven(`a ${name}`));
      return made;
    };
    Object.defineProperty(globalThis, name, found);
  }
}

/** Patches the functions of node's modules and of the engine. */
export function watchNatives() {
  guardModule("fs", fs);
  replaceEach(fs.promises, otherFunctions(fs.promises), (engine, name) => refusing(`fs.promises.${name}`)(engine));
  guardModule("zlib", zlib);
  guardModule("child_process", childProcess);
  watchCrypto();
  watchStreams();
  watchAssertions();
  watchTexts();
  watchWebAssembly();
  watchValues();
  watchContexts();
  watchMarks();
  watchFetching();
}
