// What node does slowly, by threads of its own, is done at once here. A task of the run has the result later. So a run
// repeats. Load this file before anything replaces functions of these modules; numbers drawn at random come from what
// `crypto` has when `putSyncVersions` is called.

import crypto from "node:crypto";
import { OF_ENGINE } from "./trips.mjs";
import { putFiles } from "./sync-files.mjs";
import { putFolders } from "./sync-folders.mjs";
import { promiseLater, putSyncVersion, replaceCall } from "./sync-calls.mjs";

/** @typedef {import("./sync-calls.mjs").SyncVersionContext} SyncVersionContext */

const CRYPTO = Object.freeze([
  "argon2", "checkPrime", "generateKey", "generatePrime", "hkdf", "pbkdf2", "randomFill", "scrypt",
]);
const CRYPTO_ITSELF = Object.freeze([
  "decapsulate", "encapsulate", "prng", "pseudoRandomBytes", "randomBytes", "randomInt", "rng", "sign", "verify",
]);

/** Those whose callback gets undefined, not null, when there is no error. */
const WITHOUT_NULL = Object.freeze(["checkPrime", "generatePrime", "randomInt"]);
const withoutNull = (/** @type {import("./sync-calls.mjs").CallOutcome} */ { value, problem }) =>
  (problem === undefined ? [undefined, value] : [problem]);

/** @param {readonly string[]} names @param {any} owner @returns {string[]} those that this node has */
const thoseIn = (names, owner) => names.filter((name) => name in owner);

/** @param {any} problem @returns {boolean} whether node's crypto throws it before it begins */
const isOfArguments = (problem) => typeof problem?.code === "string" && problem.code.startsWith("ERR_");

/** @param {SyncVersionContext} given */
function putCrypto(given) {
  const owner = /** @type {any} */ (crypto);
  /** @param {string} name */
  const howOf = (name) => ({ throws: isOfArguments, ...(WITHOUT_NULL.includes(name) && { answer: withoutNull }) });
  for (const name of thoseIn(CRYPTO, owner)) putSyncVersion(given, owner, name, owner[`${name}Sync`], howOf(name));
  for (const name of thoseIn(CRYPTO_ITSELF, owner)) putSyncVersion(given, owner, name, owner[name], howOf(name));
  putSyncVersion(given, owner, "generateKeyPair", owner.generateKeyPairSync, {
    throws: isOfArguments,
    answer: ({ value, problem }) => (problem === undefined ? [null, value.publicKey, value.privateKey] : [problem]),
  });
}

/**
 * An error of WebAssembly with the name of the function that was called.
 * @param {() => any} act
 * @param {string} name
 */
function named(act, name) {
  try {
    return act();
  } catch (error) {
    const problem = /** @type {any} */ (error);
    if (typeof problem?.message === "string") {
      problem.message = problem.message.replace(/^WebAssembly\.(?:Module|Instance)\(\)/, `WebAssembly.${name}()`);
    }
    throw problem;
  }
}

/** @param {SyncVersionContext} given */
function putWebAssembly(given) {
  const owner = /** @type {any} */ (globalThis).WebAssembly;
  const { Module, Instance, compile, instantiate } = owner;
  const { isPlaying = () => true } = given;
  const how = { order: OF_ENGINE };
  replaceCall(owner, "compile", (/** @type {any} */ bytes) => {
    if (!isPlaying()) return compile(bytes);
    return promiseLater(given, "WebAssembly.compile", () => named(() => new Module(bytes), "compile"), how);
  });
  replaceCall(owner, "instantiate", (/** @type {any} */ source, /** @type {any} */ imports) => {
    if (!isPlaying()) return instantiate(source, imports);
    return promiseLater(given, "WebAssembly.instantiate", () => named(() => {
      if (source instanceof Module) return new Instance(source, imports);
      const module = new Module(source);
      return { module, instance: new Instance(module, imports) };
    }, "instantiate"), how);
  });
}

/**
 * Replaces the slow functions of `fs`, `fs/promises`, `crypto` and WebAssembly. Call it once in a thread, and
 * `syncBuiltinESMExports` after it.
 * @param {SyncVersionContext} given
 */
export function putSyncVersions(given) {
  putFiles(given);
  putFolders(given);
  putCrypto(given);
  putWebAssembly(given);
}
