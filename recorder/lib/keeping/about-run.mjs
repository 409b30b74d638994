// How a kept run was made, as its page says it: the module, the options, the versions, and the command that makes it
// again.

import { existsSync, readFileSync } from "node:fs";
import { fileURLToPath } from "node:url";
import { OPTIONS, optionWord } from "../options/table.mjs";
import { HERE } from "../processes/platform.cjs";

/** @typedef {import("../../page/run-data.mjs").About} About */
/** @typedef {import("../../page/run-data.mjs").Command} Command */

// The package is the folder above, in the repository and where it is installed.
const PACKAGE = new URL("../../../package.json", import.meta.url);

/** @returns {string} the recorder's name, with its version if it is in its package */
function version() {
  return existsSync(PACKAGE) ? `sabsim ${JSON.parse(readFileSync(PACKAGE, "utf8")).version}` : "sabsim";
}

/** A word as this system's shell takes it. */
export const { quoted } = HERE;

/**
 * A path as seen from the working directory, unless the two share only the root. Its parts are parted by `/`, which
 * each system takes.
 * @param {string} path
 * @param {string} [folder] the working directory
 * @param {import("../processes/platform.cjs").Platform} platform
 * @returns {string}
 */
export function shortPath(path, folder = process.cwd(), { path: { isAbsolute, relative, resolve, sep } } = HERE) {
  const short = relative(folder, path);
  const up = short.split(sep).filter((part) => part === "..").length;
  const depth = folder.split(sep).filter((part) => part !== "").length;
  const isFar = short === "" || isAbsolute(short) || (up > 0 && up >= depth);
  return (isFar ? resolve(folder, path) : short).replaceAll(sep, "/");
}

/**
 * The path of a module, as short as it can be.
 * @param {string} url
 * @returns {string} the URL itself if no file has it alone
 */
export function modulePath(url) {
  return /^file:[^?#]*$/.test(url) ? shortPath(fileURLToPath(url)) : url;
}

/**
 * The options of a run that don't have their defaults, as words of the command line.
 * @param {object} options
 * @returns {string} empty: none
 */
export function optionsText(options) {
  const given = /** @type {Record<string, unknown>} */ (options);
  const names = Object.entries(OPTIONS).filter(([name, { of, isShared, ifNone }]) => {
    // This option says what is run, not how.
    if (name === "program") return false;
    return isShared && (of.includes("record") || name === "fresh") && ![undefined, ifNone].includes(given[name]);
  });
  const { args = [] } = /** @type {{ args?: string[] }} */ (given);
  const words = names.flatMap(([name, { word = name }]) => wordsOf(word, given[name]));
  return [...words, ...(args.length === 0 ? [] : ["--", ...args].map(quoted))].join(" ");
}

/**
 * One option.
 * @param {string} name
 * @param {unknown} value
 * @returns {string[]}
 */
function wordsOf(name, value) {
  const word = `--${optionWord(name)}`;
  if (value === true) return [word];
  if (name === "noBlock") return [value].flat().map((agent) => `${word} ${agent}`);
  return [`${word} ${quoted(`${value}`)}`];
}

/**
 * What the page of a run says about how the run was made.
 * @param {import("./pictures.mjs").RunOrigin} how
 * @param {string} script the path of its script
 * @param {string} simulator the version of the simulator
 * @returns {{ about: About, command?: Command }}
 */
export function aboutOf({ module, options, command }, script, simulator) {
  const made = [version(), simulator, `node ${process.versions.node}`];
  const about = { module: modulePath(module), options, made: made.join(", ") };
  return { about, command: command && { ...command, script: quoted(shortPath(script)) } };
}
