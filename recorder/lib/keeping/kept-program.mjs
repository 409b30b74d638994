// The file by which a kept run of a program is made again. It names the program, its arguments, the options and the
// seed, and says which thread moved with each draw. A script doesn't have the turns of event loops.

import { createHash } from "node:crypto";
import { resolve } from "node:path";
import { fileURLToPath, pathToFileURL } from "node:url";
import { SCRIPT_LIMITS } from "../../script/limits.mjs";
import { MOST_DRAWS, moverOf } from "../board/drawn-schedule.mjs";
import { Refused } from "../options/refused.mjs";
import { OPTIONS, optionsOf } from "../options/table.mjs";
import { HERE } from "../processes/platform.cjs";
import { Windows } from "../run/windows/windows.mjs";
import { rowOf, stretchesOf } from "../shorter/stretches.mjs";
import { PROGRAM_ENDING } from "./run-store.mjs";

/**
 * @typedef {object} KeptProgram
 * @property {string} program the path of its main module
 * @property {string[]} args
 * @property {number} seed
 * @property {Record<string, unknown>} options of the run that don't have their defaults
 * @property {number[]} row
 * @property {string | undefined} script the path of the run's script, if the row is still the one that it belongs to
 * @property {Windows | undefined} windows of that script, if its blocks aren't the program's
 */

/** @typedef {import("../run/group.mjs").GroupOptions} GroupOptions */
/** @typedef {import("../run/outcome.mjs").Outcome} Outcome */

/** @param {number[]} row */
const digestOf = (row) => createHash("sha256").update(row.join()).digest("hex").slice(0, 16);

/** The options on which a run depends, except what is run. A single run is made in fresh threads if many are. */
const RULES = Object.entries({ ...Object.fromEntries(optionsOf("record")), fresh: OPTIONS.fresh })
  .filter(([name, { isShared }]) => isShared && name !== "program");

/** Options that files of earlier versions have by another name. */
const FORMER = new Map([["bounds", "limits"]]);

/**
 * Keeps what makes a run of a program again.
 * @param {import("./run-store.mjs").RunStore} keeper
 * @param {Outcome} outcome of the run that is kept
 * @param {GroupOptions} options of the run
 * @returns {string[]} why that isn't kept, if it isn't
 */
export function keepProgram(keeper, { seed, row, script, windows }, options) {
  if (!options.kind?.keepsRow || row === undefined) return [];
  if (row.length >= MOST_DRAWS) {
    return [`not kept: ${keeper.nameOf(seed, PROGRAM_ENDING)}: the run has ${MOST_DRAWS} draws or more`];
  }
  const name = keeper.nameOf(seed, "json");
  const text = textOf({ seed, row, windows, script: script === undefined ? undefined : name }, options, keeper.folder);
  keeper.keepAll(seed, { [PROGRAM_ENDING]: text });
  return [];
}

/**
 * @param {Pick<Outcome, "windows"> & { seed: number, row: number[], script: string | undefined }} run
 * @param {GroupOptions} options
 * @param {string} folder in which the file will be
 */
function textOf({ seed, row, script, windows }, options, folder) {
  const given = RULES.filter(([name, { ifNone }]) =>
    ![undefined, ifNone].includes(/** @type {any} */ (options)[name]));
  const members = {
    program: pathFrom(resolve(folder), fileURLToPath(options.module)), args: options.args, seed,
    options: Object.fromEntries(given.map(([name]) => [name, /** @type {any} */ (options)[name]])),
    row: stretchesOf(row).map(({ agent, draws }) => [agent, draws]),
    ...(script === undefined ? {} : { script: { file: script, row: digestOf(row), ...memoryOf(windows) } }),
  };
  const lines = Object.entries(members).map(([name, value]) => `  ${JSON.stringify(name)}: ${JSON.stringify(value)}`);
  return `{\n${lines.join(",\n")}\n}\n`;
}

/**
 * A file's path from a folder. Its parts are parted by `/`, so that each system reads it.
 * @param {string} folder
 * @param {string} file
 * @param {import("../processes/platform.cjs").Platform} platform
 * @returns {string}
 */
export const pathFrom = (folder, file, { path } = HERE) => path.relative(folder, file).replaceAll(path.sep, "/");

/** @param {Outcome["windows"]} windows @returns {{ windows?: number[][] }} */
const memoryOf = (windows) => (windows === undefined ? {} : {
  windows: windows.map(({ buffer, from, to, block, byte }) => [buffer, from, to, block, byte]),
});

/** @param {unknown} value @returns {value is Record<string, any>} */
const isObject = (value) => typeof value === "object" && value !== null && !Array.isArray(value);

/** @param {unknown} args @returns {args is string[]} */
const areWords = (args) => Array.isArray(args) && args.every((each) => typeof each === "string");

/** @param {unknown} pair @returns {boolean} whether it is a thread and how many draws it has in a row */
function isStretch(pair) {
  if (!Array.isArray(pair) || pair.length !== 2 || !pair.every(Number.isInteger)) return false;
  const [agent, draws] = pair;
  return agent >= 0 && moverOf(agent) < SCRIPT_LIMITS.agents && draws > 0;
}

/**
 * @param {unknown} given
 * @param {(why: string) => never} refuse
 * @returns {number[]}
 */
function rowFrom(given, refuse) {
  if (!Array.isArray(given) || !given.every(isStretch)) {
    refuse("its row must have pairs of a thread and a number of draws");
  }
  const stretches = /** @type {[number, number][]} */ (given).map(([agent, draws]) => ({ agent, draws }));
  const length = stretches.reduce((sum, { draws }) => sum + draws, 0);
  if (length > MOST_DRAWS) refuse(`its row has ${length} draws, and there can be ${MOST_DRAWS}`);
  return rowOf(stretches);
}

/** @param {unknown} numbers @returns {boolean} whether they are those of a window */
const isWindow = (numbers) =>
  Array.isArray(numbers) && numbers.length === 5 && numbers.every((each) => Number.isSafeInteger(each) && each >= 0);

/** @param {number[]} numbers of a window */
const windowOf = ([buffer, from, to, block, byte]) => ({ buffer, from, to, block, byte });

/**
 * @param {unknown} given
 * @param {(why: string) => never} refuse
 * @returns {Windows | undefined}
 */
function windowsFrom(given, refuse) {
  if (given === undefined) return undefined;
  if (!Array.isArray(given) || !given.every(isWindow)) refuse("its script's windows must have five numbers each");
  const windows = new Windows(/** @type {number[][]} */ (given).map(windowOf));
  if (windows.list.some(({ from, to }) => from >= to)) refuse("one of its script's windows has no byte");
  if (windows.overlap) refuse("two of its script's windows have a byte in common");
  return windows;
}

/**
 * The options that a kept file has, as the library takes them.
 * @param {unknown} given
 * @param {(why: string) => never} refuse
 */
function optionsFrom(given, refuse) {
  if (!isObject(given)) return refuse("its options must be an object");
  const rules = new Map(RULES);
  return Object.fromEntries(Object.entries(given).map(([written, value]) => {
    const name = FORMER.get(written) ?? written;
    const kind = rules.get(name)?.kind ?? refuse(`there is no option ${written} of a run`);
    return [name, kind.value(value, `${written} of its options`)];
  }));
}

/**
 * Reads such a file, which somebody may have changed.
 * @param {string} text
 * @param {string} file its path
 * @returns {KeptProgram}
 * @throws {Refused}
 */
export function keptProgram(text, file) {
  /** @type {(why: string) => never} */
  const refuse = (why) => {
    throw new Refused(`${file} is no run of a program that was kept: ${why}`);
  };
  let given;
  try {
    given = JSON.parse(text);
  } catch (problem) {
    return refuse(/** @type {Error} */ (problem).message.split("\n")[0]);
  }
  if (!isObject(given) || typeof given.program !== "string") {
    return refuse("it names no program; if it is a script of agents, name their module");
  }
  const { program, args = [], seed, options = {}, script } = given;
  if (!areWords(args)) refuse("its args must be words");
  if (!Number.isSafeInteger(seed) || seed < 0) refuse("its seed must be a whole number");
  const row = rowFrom(given.row, refuse);
  const isOwn = isObject(script) && typeof script.file === "string" && script.row === digestOf(row);
  return {
    program: besides(file, program), args, seed, options: optionsFrom(options, refuse), row,
    script: isOwn ? besides(file, script.file) : undefined,
    windows: isOwn ? windowsFrom(script.windows, refuse) : undefined,
  };
}

/**
 * @param {string} file
 * @param {string} path from that file's folder
 * @param {import("../processes/platform.cjs").Platform} platform
 * @returns {string}
 */
export const besides = (file, path, { path: system } = HERE) =>
  (system.isAbsolute(path) ? path : system.resolve(file, "..", path));

/** @param {string} path @returns {string} */
export const fileUrlOf = (path) => pathToFileURL(path).href;
