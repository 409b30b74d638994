// If what a program prints is shown, it goes to standard error at once: standard output is the recorder's. Each line
// begins with the thread that prints it. A text without a line feed at its end is shown as a whole line, since another
// thread may print next.

import fs from "node:fs";
import process from "node:process";
import { Writable } from "node:stream";
import { withoutOwn } from "../../agent/stack.mjs";
import { put } from "../../primordials.mjs";

const { writeSync } = fs;
/** @type {(act: () => void) => void} */
const later = /** @type {any} */ (process).nextTick;
const textFrom = Buffer.from;

/** What isn't more than so many lines is kept of what a thread has written to standard error last. */
const MOST_LINES = 4;

/** @type {{ text: string }} */
const last = { text: "" };

/**
 * @returns {string} what this thread has written to standard error last: a few lines, without frames of the recorder
 */
export const lastError = () => withoutOwn(last.text.trimEnd()).split("\n").slice(0, MOST_LINES).join("\n");

/** Nothing was written yet. */
export function forgetError() {
  last.text = "";
}

/** @param {string} text */
function print(text) {
  try {
    writeSync(2, text);
  } catch {
    // It isn't read, or not fast enough.
  }
}

/** @param {string | Uint8Array} chunk @param {unknown} encoding @returns {string} */
function textOf(chunk, encoding) {
  if (typeof chunk !== "string") return textFrom(chunk).toString();
  const isPlain = typeof encoding !== "string" || /^utf-?8$/i.test(encoding);
  return isPlain ? chunk : textFrom(chunk, /** @type {any} */ (encoding)).toString();
}

/**
 * A text with the thread before each of its lines.
 * @param {string} text
 * @param {string} name of the thread
 * @returns {string}
 */
export const namedLines = (text, name) =>
  text.replace(/\n$/, "").split("\n").map((line) => `[${name}] ${line}\n`).join("");

/**
 * @param {() => boolean} isShown whether it is shown
 * @param {() => string} name of the thread
 * @param {() => void} onPrint is called whenever something is printed, shown or not
 */
export function printAtOnce(isShown, name, onPrint) {
  for (const stream of /** @type {const} */ (["stdout", "stderr"])) {
    const written = new Writable({ write: (_chunk, _encoding, done) => done() });
    /** @type {(chunk: string | Uint8Array, encoding?: any, done?: any) => boolean} */
    const write = (chunk, encoding, done) => {
      onPrint();
      if (stream === "stderr" && chunk.length > 0) last.text = textOf(chunk, encoding);
      if (chunk.length > 0 && isShown()) print(namedLines(textOf(chunk, encoding), name()));
      const callback = typeof encoding === "function" ? encoding : done;
      if (typeof callback === "function") later(callback);
      return true;
    };
    put(written, "write", write);
    put(written, "fd", stream === "stdout" ? 1 : 2);
    /** @type {any} node's messages for it may still come, and are taken by a method that a symbol names */
    const former = process[stream];
    for (const symbol of Object.getOwnPropertySymbols(Object.getPrototypeOf(former))) {
      put(written, symbol, former[symbol].bind(former));
    }
    Object.defineProperty(process, stream, { value: written, configurable: true });
  }
}
