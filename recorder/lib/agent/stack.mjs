// What is reported about an error's stack.

import { uncurried } from "../primordials.mjs";

const begins = uncurried(String.prototype.startsWith);
const includes = uncurried(String.prototype.includes);
const indexOf = uncurried(String.prototype.indexOf);
const slice = uncurried(String.prototype.slice);

const OWN = new URL("../", import.meta.url).href;

/**
 * @param {string} line of a stack, with the line break before it
 * @returns {boolean} whether it is a frame of node's own
 */
const isOfNode = (line) => begins(line, "\n    at ") && (includes(line, "(node:") || includes(line, " node:"));

/**
 * A stack without the frames of the recorder's own files and of node's, which say nothing about the agents' code. Those
 * of node differ from version to version.
 * @param {string} stack
 * @returns {string}
 */
export function withoutOwn(stack) {
  let rest = "";
  for (let from = 0; from < stack.length;) {
    const found = indexOf(stack, "\n", from + 1);
    const to = found < 0 ? stack.length : found;
    const line = slice(stack, from, to);
    if (!includes(line, OWN) && !isOfNode(line)) rest += line;
    from = to;
  }
  return rest;
}
