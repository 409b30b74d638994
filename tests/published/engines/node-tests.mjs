// Tests of node's own about timers, workers, messages, modules and zlib, as Debian has them for two versions of node.
// Each version's are tried by a node of that version alone. A family has all files of `test/parallel` whose names begin
// so, except those that need flags of node's. `node-reasons.mjs` has those that don't pass.

import { existsSync, readFileSync, readdirSync } from "node:fs";
import { FETCHED } from "../folder.mjs";
import { FRESH, NOT_HERE, REASONS } from "./node-reasons.mjs";

/** @typedef {import("./table.mjs").Family} Family */

const ABOUT = /^test-(?:atomics|broadcastchannel|message(?:channel|port)?|module|require|timers?|worker|zlib)\b/;

/** A line of node's flags, which is at the beginning of a file. */
const FLAGS = /^\/\/ Flags: /m;

/** @param {string | undefined} names @returns {string[]} */
const words = (names = "") => names.split(/\s+/).filter((name) => name !== "");

/** @param {string} name of a file @returns {string} without what all have */
const short = (name) => name.replace(/^test-|\.m?js$/g, "");

/** @param {string} folder of a version @returns {string[]} the names of its tests that are tried */
function namesIn(folder) {
  const parallel = new URL(`${folder}/test/parallel/`, FETCHED);
  if (!existsSync(parallel)) return [];
  const isLeftOut = (/** @type {string} */ name) => words(NOT_HERE).includes(short(name));
  const named = readdirSync(parallel).filter((name) => ABOUT.test(name) && !isLeftOut(name)).sort();
  return named.filter((name) => !FLAGS.test(readFileSync(new URL(name, parallel), "utf8")));
}

/**
 * @param {number} version of node
 * @param {string} suite of Debian's that has its source
 * @returns {Family}
 */
function familyOf(version, suite) {
  const folder = `nodejs-${version}`;
  const known = new Map(REASONS.flatMap(({ says, why, tests, ...more }) =>
    [...words(tests), ...words(more[version])].map((name) => [name, { says, why }])));
  return {
    name: `node-${version}-tests`, version,
    sources: [{
      kind: "source", folder, name: `nodejs/${suite}`, files: ["test/common/*", "test/fixtures/*", "test/parallel/*"],
    }],
    programOf: (test) => ({ program: new URL("node.mjs", import.meta.url), args: [`${folder}/test/parallel/${test}`] }),
    // Their authors take it that what is due after 100 ms comes after what others do at once. Some start processes.
    options: { timeouts: 0, seconds: 20 },
    get passing() {
      return namesIn(folder).filter((name) => !known.has(short(name)));
    },
    get others() {
      const names = namesIn(folder).filter((name) => known.has(short(name)));
      return Object.fromEntries(names.map((name) => [name, known.get(short(name))]));
    },
    get fresh() {
      return namesIn(folder).filter((name) => words(FRESH).includes(short(name)));
    },
  };
}

/** @type {readonly Family[]} */
export const OF_VERSIONS = Object.freeze([familyOf(20, "trixie"), familyOf(24, "forky")]);
