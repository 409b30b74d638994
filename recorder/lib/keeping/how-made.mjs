// How a run was made, for its page: the module, the options, and the command that makes it once more by its script.

import { join } from "node:path";
import { fileURLToPath } from "node:url";
import { OPTIONS, optionWord } from "../options/table.mjs";
import { modulePath, optionsText, quoted, shortPath } from "./about-run.mjs";
import { isInstalled } from "./program.mjs";

/** @typedef {import("../run/group.mjs").GroupOptions} GroupOptions */

const PROGRAM = join(fileURLToPath(new URL("../../", import.meta.url)), "record.mjs");

/** How this program is started: by its name if it is installed, else by its file. */
function programWords() {
  return isInstalled() ? "npx sabsim-record" : `node ${quoted(shortPath(PROGRAM))}`;
}

/**
 * @param {{ module: string, args: string[], [option: string]: unknown }} options of the run
 * @returns {Omit<import("../../page/run-data.mjs").Command, "script">} to which `--replay FILE` is added, before what
 * comes behind `--`
 */
export function replayCommand(options) {
  const { module, args } = options;
  const others = Object.entries(OPTIONS).filter(([name, { isReplayed, ifNone }]) =>
    isReplayed && ![undefined, ifNone].includes(/** @type {any} */ (options[name])));
  const words = others.map(([name]) => ` --${optionWord(name)} ${quoted(`${options[name]}`)}`);
  return {
    options: `${programWords()} ${quoted(module)}${words.join("")}`,
    args: args.length === 0 ? "" : ` ${["--", ...args].map(quoted).join(" ")}`,
  };
}

/**
 * How a run was made. A kept run of a program names its program and its options itself. No command calls functions that
 * somebody has given in place of the module's `init` and `check`.
 * @param {GroupOptions} options of the run
 * @returns {import("./pictures.mjs").RunOrigin}
 */
export function howMade(options) {
  const { module, init, check, kind } = options;
  const made = { module, options: optionsText(options) };
  if (kind?.keepsRow) return { ...made, command: { options: programWords(), args: "", isOfRow: true } };
  if (init !== undefined || check !== undefined) return { ...made, command: undefined };
  return { ...made, command: replayCommand({ ...options, module: modulePath(module) }) };
}
