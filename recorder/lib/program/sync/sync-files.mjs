// `fs` and `fs.promises` by their synchronous versions. Streams over files call the functions of `fs`, so they are
// served by these.

import fs from "node:fs";
import util from "node:util";
import { BUFFER_SIZE, FileHandle, engine, isInPieces, takeWatching } from "./file-handle.mjs";
import { doesOtherwise } from "../../processes/node-versions.mjs";
import { callLater, isThrown, outcomeOf, promiseLater, putSyncVersion, replaceCall } from "./sync-calls.mjs";
import { apply, defineProperty, getOwnPropertyDescriptor } from "../../primordials.mjs";

/** @typedef {import("./sync-calls.mjs").SyncVersionContext} SyncVersionContext */
/** @typedef {import("./sync-calls.mjs").CallOutcome} CallOutcome */

const files = /** @type {any} */ (fs);
const enginePromises = { ...files.promises };

const PLAIN = Object.freeze([
  "access", "appendFile", "chmod", "chown", "copyFile", "fchmod", "fchown", "fdatasync", "fstat", "fsync",
  "ftruncate", "futimes", "lchmod", "lchown", "link", "lutimes", "mkdir", "mkdtemp", "open", "readFile", "readdir",
  "readlink", "realpath", "rename", "rm", "rmdir", "statfs", "symlink", "truncate", "unlink", "utimes", "writeFile",
]);
const STATS = Object.freeze(["stat", "lstat"]);

/**
 * @param {string} name `stat` or `lstat`
 * @param {any[]} all without the callback
 * @returns {any} what its synchronous version returns, without the option that only that one has
 */
const statOf = (name, [path, options]) => engine[`${name}Sync`](path,
  name === "stat" && doesOtherwise("statWithoutEntry") ? options : { ...options, throwIfNoEntry: true });

/**
 * What the callback of read and write gets, and of their forms for several buffers.
 * @param {CallOutcome} outcome
 * @param {any[]} all
 */
const counted = ({ value = 0, problem = null }, [, data]) => [problem, value, data];

/** @param {CallOutcome} outcome @returns {unknown[]} what a callback gets, also if the value is undefined */
const always = ({ value, problem }) => (problem === undefined ? [null, value] : [problem]);

/** @param {SyncVersionContext} given */
function putReads(given) {
  const { isPlaying = () => true } = given;
  for (const name of ["write", "readv", "writev"]) {
    putSyncVersion(given, files, name, engine[`${name}Sync`], { answer: counted });
  }
  replaceCall(files, "read", /** @this {any} */ function (/** @type {any[]} */ ...all) {
    const done = all.at(-1);
    if (!isPlaying() || typeof done !== "function") return apply(engine.read, this, all);
    const [fd, ...rest] = all.slice(0, -1);
    const buffer = ArrayBuffer.isView(rest[0]) ? rest.shift() : rest[0]?.buffer ?? Buffer.alloc(BUFFER_SIZE);
    const outcome = outcomeOf(() => engine.readSync(fd, buffer, ...rest));
    if (isThrown(outcome.problem)) throw outcome.problem;
    return callLater(given, "read", done, counted(outcome, [fd, buffer]));
  });
}

/** @param {SyncVersionContext} given */
function putCallbacks(given) {
  const { isPlaying = () => true } = given;
  // Only macOS has lchmod.
  const there = PLAIN.filter((name) => typeof engine[`${name}Sync`] === "function");
  for (const name of there) putSyncVersion(given, files, name, engine[`${name}Sync`]);
  for (const name of STATS) {
    putSyncVersion(given, files, name, (...all) => statOf(name, all), { answer: always });
  }
  putSyncVersion(given, files, "cp", engine.cpSync, { answer: always });
  if ("glob" in files) putSyncVersion(given, files, "glob", engine.globSync);
  putReads(given);
  const native = { native: engine.realpath.native };
  putSyncVersion(given, native, "native", engine.realpathSync.native);
  files.realpath.native = native.native;
  replaceCall(files, "close", (/** @type {number} */ fd, /** @type {Function | undefined} */ done) => {
    if (!isPlaying() || (done !== undefined && typeof done !== "function")) return engine.close(fd, done);
    const { problem = null } = outcomeOf(() => engine.closeSync(fd));
    if (isThrown(problem)) throw problem;
    return callLater(given, "close", done ?? throwIt, [problem]);
  });
  replaceCall(files, "exists", (/** @type {any} */ path, /** @type {any} */ done) => {
    if (!isPlaying() || typeof done !== "function") return engine.exists(path, done);
    return callLater(given, "exists", done, [engine.existsSync(path)]);
  });
  const value = (/** @type {any} */ path) => new Promise((resolve) => files.exists(path, resolve));
  const found = getOwnPropertyDescriptor(files.exists, util.promisify.custom);
  if (found?.configurable || found?.writable) defineProperty(files.exists, util.promisify.custom, { ...found, value });
}

/** @param {unknown} problem */
function throwIt(problem) {
  if (problem) throw problem;
}

/** @param {SyncVersionContext} given */
function putPromises(given) {
  const { isPlaying = () => true } = given;
  const { promises } = files;
  /** @param {string} name @param {(...all: any[]) => any} sync */
  const put = (name, sync) => replaceCall(promises, name, (/** @type {any[]} */ ...all) => {
    const signal = all.at(-1)?.signal;
    if (!isPlaying() || signal?.aborted) return enginePromises[name](...all);
    return promiseLater(given, name, () => sync(...all), { signal });
  });
  const hasSyncVersion = (/** @type {string} */ name) =>
    typeof promises[name] === "function" && typeof engine[`${name}Sync`] === "function";
  for (const name of PLAIN.filter((each) => each !== "open" && hasSyncVersion(each))) put(name, engine[`${name}Sync`]);
  for (const name of STATS) put(name, (...all) => statOf(name, all));
  put("cp", engine.cpSync);
  put("realpath", engine.realpathSync.native);
  if ("glob" in promises) putGlob(given, promises);
  put("open", (...all) => new FileHandle(given, engine.openSync(...all)));
  for (const name of ["readFile", "writeFile", "appendFile"]) {
    const onPath = promises[name];
    replaceCall(promises, name, (/** @type {any} */ file, /** @type {any[]} */ ...rest) => {
      if (file instanceof FileHandle) return file[/** @type {"readFile"} */ (name)](...rest);
      // These don't take the number of a descriptor.
      if (typeof file === "number") return enginePromises[name](file, ...rest);
      if (isPlaying() && name === "writeFile" && isInPieces(rest[0])) return writePieces(promises, file, rest);
      return onPath(file, ...rest);
    });
  }
}

/** @param {SyncVersionContext} given @param {any} promises of which one function returns an iterator */
function putGlob(given, promises) {
  const { isPlaying = () => true } = given;
  replaceCall(promises, "glob", async function* (/** @type {any[]} */ ...all) {
    yield* isPlaying() ? await promiseLater(given, "glob", () => engine.globSync(...all)) : enginePromises.glob(...all);
  });
}

/** @param {any} promises @param {any} path @param {any[]} rest */
async function writePieces(promises, path, [data, options]) {
  const { flag = "w", mode } = /** @type {any} */ (typeof options === "object" && options !== null ? options : {});
  const handle = await promises.open(path, flag, mode);
  try {
    await handle.writeFile(data, options);
  } finally {
    await handle.close();
  }
}

/**
 * Replaces what `fs` and `fs/promises` have.
 * @param {SyncVersionContext} given
 */
export function putFiles(given) {
  takeWatching();
  putCallbacks(given);
  putPromises(given);
}
