#!/usr/bin/env node
// Makes many runs of every right program of the tests, with default options. None may fail, be it after an early end.
//
//     node recorder/bench/right.mjs [--seeds N] [--jobs N] [--only NAME,..]
//
// It prints a line for each program: how many runs failed, the first of them, and why. NAME is a program's name in
// recorder/tests/programs/table.mjs, or a beginning of one; without it all are run. The status is 1 if a run fails, and
// 2 if the command line is refused.

import { fileURLToPath } from "node:url";
import { parseArgs } from "node:util";
import { explore } from "../recorder.mjs";

/** @typedef {{ main: string, name: string, right: boolean }} Named */
/** @typedef {Named & { isWeb?: boolean, isEndless?: boolean, notYet?: string }} Program */

/** What the tests know of their programs is data here: it is read when this runs. */
const FOLDER = new URL("../tests/programs/", import.meta.url);
const TABLE = new URL("table.mjs", FOLDER).href;

const SEEDS = 1_000;

/** @param {string[]} words of the command line @param {Program[]} known */
function askedFor(words, known) {
  const text = /** @type {const} */ ({ type: "string" });
  const { values } = parseArgs({ args: words, options: { seeds: text, jobs: text, only: text } });
  const { seeds = `${SEEDS}`, jobs = "1", only = "" } = values;
  const [most, side] = [Number(seeds), Number(jobs)];
  if (!(most > 0) || !(side > 0)) throw new Error("--seeds and --jobs must be numbers above 0");
  const names = /** @type {string} */ (only).split(",");
  const all = known.filter(({ right, notYet }) => right && notYet === undefined);
  return { seeds: most, jobs: side, programs: all.filter(({ name }) => names.some((each) => name.startsWith(each))) };
}

/**
 * @param {Program} program
 * @param {{ seeds: number, jobs: number }} amount
 * @returns {Promise<string[]>} what each failing run says, and its seed
 */
async function failuresOf(program, { seeds, jobs }) {
  const options = {
    program: fileURLToPath(new URL(program.main, FOLDER)), seeds, jobs, checkEvery: 0,
    programOutput: /** @type {const} */ ("none"),
    web: program.isWeb === true, ...(program.isEndless ? { stuck: /** @type {const} */ ("allow") } : {}),
  };
  const failures = [];
  for await (const { fails, seed, detail, ending, onlyIf = "" } of explore(options)) {
    if (fails) failures.push(`seed ${seed}: ${ending} ${detail.split("\n")[0]} ${onlyIf}`.trim());
  }
  return failures;
}

async function main() {
  let asked;
  try {
    asked = askedFor(process.argv.slice(2), (await import(TABLE)).PROGRAMS);
  } catch (problem) {
    console.error(`right: ${/** @type {Error} */ (problem).message}`);
    process.exitCode = 2;
    return;
  }
  for (const program of asked.programs) {
    const failures = await failuresOf(program, asked).catch((problem) => [`not run to its end: ${problem.message}`]);
    const first = failures.length === 0 ? "" : `, ${failures[0]}`;
    console.log(`${program.name}: ${failures.length} of ${asked.seeds} failed${first}`);
    if (failures.length > 0) process.exitCode = 1;
  }
}

await main();
