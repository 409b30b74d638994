// What a command line has asked for, as a summary reports it. Summaries can be joined if it is the same.

import { createHash } from "node:crypto";
import { readFileSync } from "node:fs";
import { fileURLToPath } from "node:url";
import { Refused } from "../options/refused.mjs";
import { optionWord, optionsOf as rowsOf } from "../options/table.mjs";

/** @typedef {import("../seeds/ranges.mjs").SeedRange} SeedRange */

/**
 * @typedef {object} RequestedRuns
 * @property {string} module as the command line names it
 * @property {string} digest of its file: SHA-256, in hexadecimal digits
 * @property {SeedRange[]} seeds of all shards
 * @property {import("../seeds/ranges.mjs").Shard | null} shard
 * @property {Record<string, unknown>} options what the runs and their checks depend on; null: the module's `setup` or
 * the recorder says it
 */

/**
 * @param {import("./options.mjs").CommandOptions} options
 * @param {string} url of the module
 * @param {boolean} preloads whether node's own options load code before the recorder
 * @returns {RequestedRuns}
 */
export function requestedRunsOf(options, url, preloads) {
  const { module, asked, shard = null, args } = options;
  const given = rowsOf("command").filter(([, { isShared }]) => isShared).map(([name, { word = name }]) =>
    [word, /** @type {Record<string, unknown>} */ (options)[name] ?? null]);
  const written = { args, ...Object.fromEntries(given), preloads };
  return { module, digest: digestOf(module, url), seeds: [asked], shard, options: written };
}

/** @param {string} module as the command line names it @param {string} url */
function digestOf(module, url) {
  try {
    return createHash("sha256").update(readFileSync(fileURLToPath(url))).digest("hex");
  } catch (error) {
    throw new Refused(`${module} can't be read: ${/** @type {Error} */ (error).message}`);
  }
}

// What isn't an option's name with hyphens between its words.
const NAMES = new Map([
  ["args", "what follows --"], ["preloads", "whether node's own options load code before the recorder"],
]);

/** @param {unknown} value of an option */
const valueText = (value) => (value === null ? "not given" : JSON.stringify(value));

/**
 * Whether what two command lines have asked for differs in more than the seeds.
 * @param {RequestedRuns} one
 * @param {RequestedRuns} other
 * @returns {string | undefined} in what, in words
 */
export function differenceOf(one, other) {
  if (one.digest !== other.digest) {
    return one.module === other.module
      ? `the text of ${one.module} isn't the same in both`
      : `they are of different modules, ${one.module} and ${other.module}`;
  }
  for (const name of new Set([...Object.keys(one.options), ...Object.keys(other.options)])) {
    const [value, theirs] = [one, other].map(({ options }) => valueText(options[name] ?? null));
    const word = NAMES.get(name) ?? `--${optionWord(name)}`;
    if (value !== theirs) return `${word} is ${value} in the one and ${theirs} in the other`;
  }
  return undefined;
}
