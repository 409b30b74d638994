// The command line: its words, as the table of options has them.

import { parseArgs } from "node:util";
import { usageWords, versionLine } from "../keeping/program.mjs";
import { nearest } from "../options/nearest.mjs";
import { Refused } from "../options/refused.mjs";
import { SEEDS_OF_ALL, defaultText, defaultsOf, optionWord, optionsOf as rowsOf, unlinked } from "../options/table.mjs";
import { countText } from "../run/words/summary-words.mjs";
import { countOf, shardOf } from "../seeds/ranges.mjs";
import { runFrom } from "./whole-program.mjs";

// How many characters a line of help has at most, and at which character its explanation begins.
const WIDTH = 120;
const INDENT = 18;

/** @param {string} text @returns {string[]} its lines, as long as they may be */
function wrapped(text) {
  /** @type {string[]} */
  const lines = [];
  for (const word of text.split(" ")) {
    const longer = `${lines.at(-1) ?? ""} ${word}`;
    if (lines.length > 0 && longer.length <= WIDTH - INDENT) lines[lines.length - 1] = longer;
    else lines.push(word);
  }
  return lines;
}

/** @type {(row: ReturnType<typeof rowsOf>[number]) => string} what it says, and what serves if it isn't given */
const explanationOf = ([, row]) => {
  const other = defaultText(row);
  return `${unlinked(row.help[1]).replaceAll("`", "")}${other === undefined ? "" : ` [default: ${other}]`}`;
};

/** @type {(row: ReturnType<typeof rowsOf>[number]) => string} */
const helpOf = (row) => {
  const [name, { help: [argument], letter }] = row;
  const words = `  ${letter === undefined ? "" : `-${letter}, `}--${optionWord(name)} ${argument}`.trimEnd();
  const margin = " ".repeat(INDENT);
  const lines = wrapped(explanationOf(row)).join(`\n${margin}`);
  // The explanation of a long option begins on a line of its own.
  return words.length < INDENT ? words.padEnd(INDENT) + lines : `${words}\n${margin}${lines}`;
};

const ROWS = rowsOf("command");

export const USAGE = `usage: ${usageWords("record")} MODULE [options] [-- arguments for the agents]
       ${usageWords("record")} --program FILE [options] [-- arguments for the program]

Runs the agents of a module under seeded schedules, and keeps the first run that fails as a script for sabsim.

${ROWS.map(helpOf).join("\n")}

Status:
  0  no run failed
  1  some runs failed
  2  the command line or the module was refused
  3  the code and the simulator differ, or with --replay the code and the script, or with --all the code and what was
     learned of it; the chosen native program isn't there; a file or standard output can't be written; a program keeps
     something in globals; or a job's process ended
`;

/** @type {Record<string, { type: "string" | "boolean", multiple?: boolean, short?: string }>} */
const SHAPE = Object.fromEntries(ROWS.map(([name, { kind: { text, multiple = false }, letter }]) =>
  [optionWord(name), { type: text === undefined ? "boolean" : "string", multiple, ...(letter && { short: letter }) }]));

/** For words that are no options any more: what they are, or what there is in their place. */
const INSTEAD = new Map([
  ["switch", "use --strategy switch:P"], ["v", "is -V meant?"], ["bounds", "use --limits"],
  ["until-covered", "for a module of agents --all tries every schedule"],
]);

/**
 * The words of a command line, by option.
 * @param {string[]} words
 */
function parsed(words) {
  const { tokens } = parseArgs({ args: words, options: SHAPE, allowPositionals: true, strict: false, tokens: true });
  const other = tokens.find(({ kind, name }) => kind === "option" && !Object.hasOwn(SHAPE, name ?? ""));
  if (other !== undefined) {
    const { name = "", rawName } = other;
    const near = nearest(name, Object.keys(SHAPE));
    const meant = near === undefined ? "--help shows all" : `is --${near} meant?`;
    throw new Refused(`there is no option ${rawName}: ${INSTEAD.get(name) ?? meant}`);
  }
  try {
    return parseArgs({ args: words, options: SHAPE, allowPositionals: true, strict: true });
  } catch (error) {
    throw new Refused(/** @type {Error} */ (error).message.split("\n")[0]);
  }
}

/**
 * What the options say, by their names in the table.
 * @param {Record<string, any>} values by their words
 * @returns {Record<string, any>}
 */
function givenBy(values) {
  const given = ROWS.filter(([name]) => values[optionWord(name)] !== undefined);
  return Object.fromEntries(given.map(([name, { kind: { text = (/** @type {boolean} */ flag) => flag } }]) => {
    const word = optionWord(name);
    return [name, text(values[word], `--${word}`)];
  }));
}

/**
 * The seeds of a shard.
 * @param {import("../seeds/ranges.mjs").SeedRange} asked the seeds of all shards
 * @param {import("../seeds/ranges.mjs").Shard | undefined} shard
 */
function shardFrom(asked, shard) {
  if (shard === undefined) return { ...asked, asked, shard };
  const { number, of } = shard;
  const count = countOf(asked);
  if (of <= count) return { ...shardOf(asked, shard), asked, shard };
  const text = `${countText(count, "seed")} can't be shared out among ${countText(of, "shard")}`;
  throw new Refused(`--shard ${number}/${of}: ${text}`);
}

/**
 * The kept script by whose row the agents are to run.
 * @param {Record<string, any>} given
 * @returns {{ file: string, seed: number | undefined, given: Record<string, any> } | undefined} its seed if that is
 * given
 */
function replayOf(given) {
  const { replay: file, seeds } = given;
  if (file === undefined) return undefined;
  if (seeds === undefined) return { file, seed: undefined, given };
  const { first, last } = seeds;
  if (first !== last) throw new Refused(`--replay makes one run: --seeds must be one seed, but is "${first}..${last}"`);
  return { file, seed: first, given };
}

/**
 * @typedef {object} CommandLineOnly what a command line says besides the options of many runs
 * @property {string | undefined} module as it is named; undefined: the kept run that is replayed names its program
 * @property {import("../options/run-kinds.mjs").RunKind} kind of the runs
 * @property {string[]} args for the agents, or for the program
 * @property {import("../seeds/ranges.mjs").SeedRange} asked the seeds of all shards
 * @property {import("../seeds/ranges.mjs").Shard | undefined} shard
 * @property {string} [sabsim] where the native program must be
 * @property {string} format
 * @property {string} [out]
 * @property {boolean} shorten
 * @property {{ file: string, seed: number | undefined, given: Record<string, any> }} [replay]
 * @property {boolean} all whether every schedule is to be tried
 * @property {boolean} covers whether no seeds are given, so that its real runs go over each edge
 * @property {number} [within] for how many seconds
 * @property {number} [states] how many states at most
 * @property {import("../every/data.mjs").EveryData} [every] how far that came, if it isn't closed
 * @property {AbortSignal} [over] aborted when the time is over that this and the runs may take
 */

/**
 * @typedef {import("../run/group.mjs").GroupOptions & Omit<import("../seeds/runs.mjs").OfRuns, "sabsim"> &
 * CommandLineOnly & { ordinary: "watch" | "store" | "refuse", races: "fail" | "allow",
 * unrecorded: "fail" | "allow" }} CommandOptions
 */

/**
 * @param {string[]} words after the program's name
 * @returns {CommandOptions | { text: string }} what a command line asks for; only a text, if it asks for help or the
 * version
 */
export function commandOptionsOf(words) {
  const end = words.indexOf("--");
  const { values, positionals } = parsed(end < 0 ? words : words.slice(0, end));
  if (values.help) return { text: USAGE };
  if (values.version) return { text: versionLine("record") };
  const given = givenBy(values);
  /** @type {Record<string, any>} */
  const chosen = { ...defaultsOf("command"), ...given };
  const { seeds, shard, noShorten, help: _help, version: _version, ...all } = chosen;
  const asked = given.seeds ?? (all.all ? SEEDS_OF_ALL : seeds);
  return /** @type {CommandOptions} */ ({
    ...all, covers: given.seeds === undefined, ...runFrom(given, positionals),
    args: end < 0 ? [] : words.slice(end + 1), ...shardFrom(asked, shard), shorten: !noShorten, replay: replayOf(given),
  });
}
