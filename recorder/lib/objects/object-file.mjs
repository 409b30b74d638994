// The file of a module of an object: whether it may be one, by its text, since before it is loaded it must be known how
// many agents there are; and the lines of its operations.

import { readFileSync } from "node:fs";
import { basename } from "node:path";
import { fileURLToPath } from "node:url";

const HAS_OPERATIONS = /\bexport\b[^]*\boperations\b/;
const HAS_AGENT = /\bexport\s+default\b|\bas\s+default\b/;

/** @param {string} url @returns {boolean} */
export function mayBeObject(url) {
  try {
    const text = readFileSync(fileURLToPath(url), "utf8");
    return HAS_OPERATIONS.test(text) && !HAS_AGENT.test(text);
  } catch {
    return false;
  }
}

/**
 * @param {string} url of a module of an object
 * @param {string} name of an operation
 * @returns {string} the file, and the line at which `operations` has it, if that is found
 */
export function lineOfOperation(url, name) {
  const file = basename(fileURLToPath(url));
  const text = readFileSync(fileURLToPath(url), "utf8");
  const begins = text.search(/\boperations\s*=/);
  const at = begins < 0 ? -1 : text.indexOf(name, begins);
  return at < 0 ? file : `${file}:${text.slice(0, at).split("\n").length}`;
}
