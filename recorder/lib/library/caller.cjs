// Where the code is that has called a function of the library. This is a CommonJS module, since the form of
// `sabsim/test` for `require` needs it too.
"use strict";

const { dirname, isAbsolute, resolve, sep } = require("node:path");
const { fileURLToPath } = require("node:url");

/** How many frames are looked at. */
const MOST_FRAMES = 200;

// The library itself: what calls its functions is looked for.
const RECORDER = resolve(__dirname, "../..");
const LIBRARY = `${RECORDER}${sep}lib${sep}`;
const FILES = ["recorder.mjs", "testing.mjs", "testing.cjs"].map((name) => `${RECORDER}${sep}${name}`);

// Code that is typed in has no file: it is taken to be in the working directory, as node itself takes it.
const TYPED_IN = /^(\[eval|\[stdin|REPL\d)/;

/** A frame in the text of a stack trace, and where it is, with or without a function's name before it. */
const FRAME = /^\s+at (?:.*\((.*:\d+:\d+)\)|(?:async )?(.*:\d+:\d+))$/;

/**
 * @typedef {object} Caller whose code has called a function
 * @property {() => string | undefined} folder of its file; undefined if it is in no file
 * @property {string | undefined} place file, line and column
 * @property {string} [name] of the test for which the function is called, if it has one
 */

/** @param {string} file @returns {string} its path, if it is a URL of one */
const pathOf = (file) => (file.startsWith("file:") ? fileURLToPath(file) : file);

/** @param {NodeJS.CallSite} frame @returns {boolean} whether its code is in no file, node's or the library's */
function isOwn(frame) {
  const file = frame.getFileName();
  if (typeof file !== "string" || file.startsWith("node:")) return true;
  const path = pathOf(file);
  return path.startsWith(LIBRARY) || FILES.includes(path);
}

/**
 * @param {Function} called
 * @returns {NodeJS.CallSite[]} the frames of the code that has called it, the innermost first
 */
function framesAbove(called) {
  const { stackTraceLimit, prepareStackTrace } = Error;
  try {
    // None of these throws if a program has made them constant: then no frames are known.
    Reflect.set(Error, "stackTraceLimit", MOST_FRAMES);
    const kept = (/** @type {Error} */ _, /** @type {NodeJS.CallSite[]} */ frames) => frames;
    Reflect.set(Error, "prepareStackTrace", kept);
    /** @type {{ stack?: any }} */
    const holder = {};
    Error.captureStackTrace(holder, called);
    return Array.isArray(holder.stack) ? holder.stack : [];
  } finally {
    Reflect.set(Error, "stackTraceLimit", stackTraceLimit);
    Reflect.set(Error, "prepareStackTrace", prepareStackTrace);
  }
}

/** @param {NodeJS.CallSite | undefined} frame @returns {string | undefined} */
function folderOf(frame) {
  const file = frame?.getFileName();
  if (typeof file !== "string") return undefined;
  const path = pathOf(file);
  if (isAbsolute(path)) return dirname(path);
  return TYPED_IN.test(file) ? process.cwd() : undefined;
}

/**
 * The folder of the file that has called a function.
 * @param {Function} called
 * @returns {string | undefined} undefined if the innermost code that isn't node's or the library's is in no file
 */
function folderOfCaller(called) {
  return folderOf(framesAbove(called).find((frame) => !isOwn(frame)));
}

/**
 * Where the code is that has called a function. The place is that in the text of a stack trace: a test runner that
 * compiles tests has its own source maps, which change that text alone.
 * @param {Function} called
 * @returns {Caller}
 */
function callerOf(called) {
  const frames = framesAbove(called);
  const at = frames.findIndex((frame) => !isOwn(frame));
  if (at === -1) return { folder: () => undefined, place: undefined };
  const frame = frames[at];
  /** @type {{ stack?: any }} */
  const holder = {};
  Error.captureStackTrace(holder, called);
  const texts = String(holder.stack).split("\n").filter((line) => /^\s+at /.test(line));
  const [, inFunction, alone] = FRAME.exec(texts[at] ?? "") ?? [];
  const place = inFunction ?? alone ?? `${frame.getFileName()}:${frame.getLineNumber()}:${frame.getColumnNumber()}`;
  return { folder: () => folderOf(frame), place };
}

module.exports = { callerOf, folderOfCaller };
