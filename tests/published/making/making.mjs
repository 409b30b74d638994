// What is made of published files, so that the recorder can run them.

import { readFileSync, writeFileSync } from "node:fs";
import { join } from "node:path";
import { classesOf } from "./from-python.mjs";
import { pageScript } from "./page-script.mjs";
import { preprocessed } from "./preprocessed.mjs";

/** How a file is made of another one. */
const WAYS = Object.freeze({
  preprocessed, pageScript,
  streams: (path) => classesOf(readFileSync(path, "utf8"), ["_ReadStream", "_StreamingFetcher"]),
});

/** @typedef {{ of: string, file: string, way: keyof typeof WAYS }} Making a file that is made of another one */

/**
 * Makes files of those that are in a folder.
 * @param {string} folder
 * @param {readonly Making[]} makings
 */
export function make(folder, makings) {
  for (const { of, file, way } of makings) writeFileSync(join(folder, file), WAYS[way](join(folder, of)));
}

/** @typedef {{ file: string, from: RegExp, to: string }} Mend a change at the lines of a bug */

/**
 * Mends a text.
 * @param {string} name of its file
 * @param {string} text
 * @param {readonly Mend[]} mends those of this file are made
 * @returns {string}
 */
export function mended(name, text, mends) {
  return mends.filter(({ file }) => file === name).reduce((before, { from, to }) => {
    const after = before.replace(from, to);
    if (after === before) throw new Error(`${name} has nothing like ${from}`);
    return after;
  }, text);
}
