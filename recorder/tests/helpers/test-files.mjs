// The files of tests: which of them a command line asks for, and in which order they begin.

import { mkdirSync, readFileSync, readdirSync, writeFileSync } from "node:fs";
import { homedir } from "node:os";
import { dirname, isAbsolute, join } from "node:path";
import { fileURLToPath } from "node:url";
import { parseArgs } from "node:util";
import { nearest } from "../../lib/options/nearest.mjs";

const FOLDER = fileURLToPath(new URL("../", import.meta.url));
const ENDING = ".test.mjs";

/** The folders that have the files. docs/ARCHITECTURE.md says which tests are in which one. */
const LAYERS = ["unit", "runs", "programs", "pages", "documents"];

/** Those whose files are commands of their own: they run if a word names them, or with `--all`. */
const APART = ["fuzz", "bench"];

/** The file of the user's cache that has how many seconds each file of tests took the last time. */
const { XDG_CACHE_HOME: CACHE = "" } = process.env;
const SECONDS = join(isAbsolute(CACHE) ? CACHE : join(homedir(), ".cache"), "sabsim/test-seconds.json");

/** @returns {Record<string, number>} how many seconds files took the last time, as far as that is known */
function secondsKept() {
  try {
    return JSON.parse(readFileSync(SECONDS, "utf8"));
  } catch {
    return {};
  }
}

/** What counts while this process runs. */
const LAST = secondsKept();

/**
 * Keeps how many seconds files took.
 * @param {{ name: string, seconds: number }[]} results
 */
export function keepSeconds(results) {
  const took = Object.fromEntries(results.map(({ name, seconds }) => [name, seconds]));
  try {
    mkdirSync(dirname(SECONDS), { recursive: true });
    writeFileSync(SECONDS, JSON.stringify({ ...secondsKept(), ...took }));
  } catch {
    // The next time they begin in another order, and nothing else is different.
  }
}

/**
 * Whether a file starts no thread and no process, if it isn't given the built program. Without it each is run so that
 * node itself refuses both.
 * @param {string} name
 */
export const isUnitTest = (name) => name.startsWith("unit/");

/** By these options node refuses threads and processes, and nothing else that tests do. */
const PERMISSION = ["--permission", "--experimental-permission"]
  .find((word) => process.allowedNodeEnvironmentFlags.has(word)) ?? "--permission";
export const WITHOUT_OTHERS = Object.freeze([PERMISSION, "--allow-fs-read=*", "--allow-fs-write=*"]);

/** What node's refusal says. */
export const REFUSAL = "ERR_ACCESS_DENIED";

/** The command line asks for something that there isn't. */
export class Mistaken extends Error {}

/** The options, by their names, in the form that node takes. */
const OPTIONS = /** @type {const} */ ({
  all: { type: "boolean" }, unit: { type: "boolean" }, "require-all": { type: "boolean" },
});

/**
 * What a file took the last time; one that wasn't run yet may take long.
 * @param {string} name
 */
const lastOf = (name) => LAST[name] ?? Number.MAX_VALUE;

/** The names of all files, with their folders. Those that took longest begin first, so that none is left alone. */
export const namesOfAll = () => [...LAYERS, ...APART].flatMap((layer) => {
  return readdirSync(join(FOLDER, layer)).filter((name) => name.endsWith(ENDING)).map((name) => `${layer}/${name}`);
}).sort().sort((a, b) => lastOf(b) - lastOf(a));

/** @param {string} name of a file @returns {boolean} whether it runs if neither a word nor `--all` asks for it */
const isAsked = (name) => !APART.some((folder) => name.startsWith(`${folder}/`));

/** @param {string} word an option that there isn't */
function mistakenOption(word) {
  const near = nearest(word, Object.keys(OPTIONS));
  const meant = near === undefined ? `there are --${Object.keys(OPTIONS).join(", --")}` : `is --${near} meant?`;
  return new Mistaken(`there is no option ${word}: ${meant}`);
}

/**
 * What a command line asks for.
 * @param {string[]} args
 * @returns {{ names: string[], isUnit: boolean, isNamed: boolean, requireAll: boolean }} the files' names, in the order
 * in which they begin, and whether words have named them
 */
export function askedBy(args) {
  const { tokens } = parseArgs({ args, options: OPTIONS, allowPositionals: true, strict: false, tokens: true });
  const given = new Set();
  let names = namesOfAll();
  /** @type {string[]} */
  const words = [];
  for (const token of tokens) {
    if (token.kind === "positional") words.push(token.value);
    if (token.kind !== "option") continue;
    if (!Object.hasOwn(OPTIONS, token.name) || token.value !== undefined) throw mistakenOption(args[token.index]);
    given.add(token.name);
  }
  const isUnit = given.has("unit");
  if (isUnit) names = names.filter(isUnitTest);
  const among = isUnit ? "name of a file that starts no thread and no process" : "name of a file";
  for (const word of words) {
    if (names.some((name) => name.includes(word))) continue;
    throw new Mistaken(`no ${among} in recorder/tests contains "${word}"`);
  }
  const isNamed = words.length > 0;
  if (isNamed) names = names.filter((name) => words.some((word) => name.includes(word)));
  else if (!given.has("all")) names = names.filter(isAsked);
  return { names, isUnit, isNamed, requireAll: given.has("require-all") };
}
