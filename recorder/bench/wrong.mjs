#!/usr/bin/env node
// Makes wrong programs of the pieces by one edit each, and counts in how many runs each is found. No run of a piece
// itself may fail. A lost wake-up that a time hides fails no run, but must be reported about the runs that finished.
//
//     node recorder/bench/wrong.mjs [--seeds N] [--jobs N] [--only NAME,..]
//
// It prints a table of the wrong programs, one of the pieces, and the share that was found. NAME is that of a wrong
// program or of a piece; without it all are run. The status is 1 if a run of a right program fails, or if a hidden
// wake-up isn't reported or one of a right program is. It is 1 too if all wrong programs are run and fewer than LEAST
// of them are found. It is 2 if the command line is refused.

import { mkdtempSync, readdirSync, rmSync, writeFileSync } from "node:fs";
import { tmpdir } from "node:os";
import { join } from "node:path";
import { parseArgs } from "node:util";
import { fileURLToPath } from "node:url";
import { OnlyByTimeWaits, hiddenWaits } from "../lib/command/only-by-time.mjs";
import { jobHere } from "../lib/library/explore.mjs";
import { checkedOptions } from "../lib/library/library-options.mjs";
import { Refused } from "../lib/options/refused.mjs";
import { Runs, outcomesOf } from "../lib/seeds/runs.mjs";
import { EDITS, HIDDEN, RIGHT, STARVES, editedText, fileOf } from "./edits.mjs";
import { isMain } from "./is-main.mjs";

/** The names of the pieces. */
export const PIECES = readdirSync(new URL("./pieces/", import.meta.url)).map((name) => name.replace(/\.mjs$/, ""));

/** How many of the wrong programs have to be found. */
const LEAST = 74;

/** Why runs needn't show what is wrong, by the kind of an edit. */
const NOTES = new Map([[RIGHT, "right"], [HIDDEN, "hidden by a time"], [STARVES, "no run shows it"]]);

/**
 * @typedef {object} Counted the results of a program's runs
 * @property {number} failed how many of them failed
 * @property {number | undefined} first the least seed of those that failed
 * @property {Map<string, number>} endings how often each ending failed
 * @property {number} hidden in how many runs that finished one wait ended only because its time was up
 */

/**
 * Runs a program under many seeds. Only how each run ends is looked at.
 * @param {string} module
 * @param {{ seeds: number, jobs: number }} amount
 * @param {object} [further] options of the library
 * @returns {Promise<Counted>}
 */
export async function counted(module, { seeds, jobs }, further = {}) {
  const many = { first: 1, last: seeds, jobs, checkEvery: 0, fresh: false, sabsim: undefined, trials: true };
  const options = { ...checkedOptions({ module, ...further }, () => undefined), ...many };
  const runs = new Runs(options, { job: jobHere({ jobs }) });
  /** @type {Counted} */
  const counts = { failed: 0, first: undefined, endings: new Map(), hidden: 0 };
  const onlyByTime = new OnlyByTimeWaits();
  for await (const outcome of outcomesOf(runs)) {
    const { fails, seed, ending } = outcome;
    onlyByTime.add(outcome);
    if (!fails) continue;
    counts.failed += 1;
    counts.first ??= seed;
    counts.endings.set(ending, (counts.endings.get(ending) ?? 0) + 1);
  }
  const [most] = hiddenWaits(onlyByTime.data());
  return { ...counts, hidden: most?.runs ?? 0 };
}

/** @param {string[]} cells */
const printRow = (cells) => process.stdout.write(`| ${cells.join(" | ")} |\n`);

/** @param {Counted} of @param {string} [note] @returns {string[]} cells */
function cellsOf({ failed, first, endings, hidden }, note) {
  const shown = [...endings].sort().map(([ending, count]) => `${ending} ${count}`);
  if (hidden > 0) shown.push(`reported ${hidden}`);
  if (note !== undefined) shown.push(note);
  return [`${failed}`, first === undefined ? "none" : `${first}`, shown.join(", ")];
}

/**
 * Runs wrong programs, and prints a row of each.
 * @param {readonly import("./edits.mjs").Edit[]} edits
 * @param {{ seeds: number, jobs: number }} amount
 * @returns {Promise<{ found: number, wrong: number, red: string[] }>} how many of the wrong ones were found, and the
 * names of those that aren't as they must be: right ones that failed, and hidden ones that weren't reported
 */
async function runWrong(edits, amount) {
  const folder = mkdtempSync(join(tmpdir(), "sabsim-wrong-"));
  const results = { found: 0, wrong: 0, red: /** @type {string[]} */ ([]) };
  try {
    for (const edit of edits) {
      const module = join(folder, `${edit.name}.mjs`);
      writeFileSync(module, editedText(edit));
      const of = await counted(module, amount);
      printRow([edit.name, edit.kind, ...cellsOf(of, NOTES.get(edit.kind))]);
      if (edit.kind === RIGHT && of.failed + of.hidden > 0) results.red.push(edit.name);
      if (edit.kind === HIDDEN && of.hidden === 0) results.red.push(edit.name);
      if (edit.kind === RIGHT || edit.kind === STARVES) continue;
      results.wrong += 1;
      if (of.failed > 0) results.found += 1;
    }
  } finally {
    rmSync(folder, { recursive: true });
  }
  return results;
}

/**
 * Runs pieces, and prints a row of each.
 * @param {string[]} pieces
 * @param {{ seeds: number, jobs: number }} amount
 * @returns {Promise<string[]>} the names of those that failed, or for which a hidden wake-up was reported
 */
async function runPieces(pieces, amount) {
  const red = [];
  for (const piece of pieces) {
    const of = await counted(fileURLToPath(fileOf(piece)), amount);
    printRow([piece, ...cellsOf(of)]);
    if (of.failed + of.hidden > 0) red.push(piece);
  }
  return red;
}

/** @param {string[]} titles */
function printHead(titles) {
  printRow(titles);
  printRow(titles.map((title) => (/runs|seed/.test(title) ? "---:" : "---")));
}

/** @param {string} name of an option @param {string | undefined} word */
function amountOf(name, word) {
  if (!/^[1-9]\d{0,8}$/.test(`${word}`)) throw new Refused(`--${name} takes a number from 1 on, and not ${word}`);
  return Number(word);
}

/** @param {string | undefined} only @returns what is to be run */
function chosen(only) {
  if (only === undefined) return { edits: EDITS, pieces: PIECES };
  const names = only.split(",");
  const unknown = names.find((name) => !PIECES.includes(name) && !EDITS.some((edit) => edit.name === name));
  if (unknown !== undefined) throw new Refused(`there is no wrong program and no piece \`${unknown}\``);
  return {
    edits: EDITS.filter(({ name }) => names.includes(name)),
    pieces: PIECES.filter((name) => names.includes(name)),
  };
}

async function main() {
  /** @type {Record<string, { type: "string", default?: string }>} */
  const options = {
    seeds: { type: "string", default: "500" }, jobs: { type: "string", default: "1" }, only: { type: "string" },
  };
  const { values } = parseArgs({ options });
  const amount = { seeds: amountOf("seeds", values.seeds), jobs: amountOf("jobs", values.jobs) };
  const { edits, pieces } = chosen(values.only);
  printHead(["Wrong program", "Kind", "Failing runs", "First seed", "Endings"]);
  const { found, wrong, red } = await runWrong(edits, amount);
  process.stdout.write("\n");
  printHead(["Piece", "Failing runs", "First seed", "Endings"]);
  red.push(...await runPieces(pieces, amount));
  const share = wrong === 0 ? "" : ` (${Math.round((100 * found) / wrong)}%)`;
  process.stdout.write(`\n${found} of ${wrong} wrong programs were found in ${amount.seeds} seeds${share}\n`);
  if (red.length > 0) process.stdout.write(`not as they must be: ${red.join(", ")}\n`);
  const areEnough = edits !== EDITS || found >= LEAST;
  process.exitCode = red.length === 0 && areEnough ? 0 : 1;
}

/**
 * Prints why a command line is refused.
 * @param {any} failure
 */
function tellRefused(failure) {
  const isRefused = failure instanceof Refused || /^ERR_PARSE_ARGS/.test(failure?.code);
  if (!isRefused) throw failure;
  process.stderr.write(`wrong.mjs: ${failure.message}\n`);
  process.exitCode = 2;
}

if (isMain(import.meta.url)) await main().catch(tellRefused);
