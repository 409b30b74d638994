// What was thrown, in words.

import { shown } from "../../script/operands.mjs";
import { uncurried } from "../primordials.mjs";
import { withoutOwn } from "./stack.mjs";

const { Error: EngineError, String: text } = globalThis;
const includes = uncurried(String.prototype.includes);
const plainTitle = uncurried(Error.prototype.toString);

/** What can't be put into words. */
export const NOT_SHOWN = "a value that can't be shown";

/**
 * An error's title as its own `toString` returns it, or as the engine does if the agents' code has broken that.
 * @param {Error} error
 * @returns {string}
 */
export function titleOf(error) {
  const plain = plainTitle(error);
  try {
    const own = text(error);
    return includes(own, text(error.message)) ? own : plain;
  } catch {
    return plain;
  }
}

/**
 * An error's stack without the recorder's frames, if its code has left it one.
 * @param {Error} error
 */
function stackOf(error) {
  try {
    return withoutOwn(text(error.stack ?? ""));
  } catch {
    return "";
  }
}

/**
 * Something else than an error of this realm, with its message if it has one.
 * @param {any} thrown
 */
function shownWithMessage(thrown) {
  const message = typeof thrown === "object" && thrown !== null ? thrown.message : undefined;
  return typeof message === "string" ? `an object with the message "${message}"` : shown(thrown);
}

// A cause has a cause in turn, perhaps without an end.
const MOST_CAUSES = 3;

/**
 * What an error was caused by, if it says so.
 * @param {Error} error
 * @param {number} depth how many came before
 */
function causeOf(error, depth) {
  const { cause } = error;
  return cause === undefined || depth === MOST_CAUSES ? "" : `\ncaused by ${described(cause, depth + 1)}`;
}

/**
 * What was thrown, with its stack and its causes if it has them.
 * @param {unknown} thrown
 * @param {number} [depth] how many errors have it as their cause
 * @returns {string}
 */
export function described(thrown, depth = 0) {
  try {
    if (!(thrown instanceof EngineError)) return shownWithMessage(thrown);
    const title = titleOf(thrown);
    const stack = stackOf(thrown);
    const whole = includes(stack, title) ? stack : `${title}\n${stack}`;
    return `${stack === "" ? title : whole}${causeOf(thrown, depth)}`;
  } catch {
    return NOT_SHOWN;
  }
}
