#!/usr/bin/env node
// How often each strategy finds what is wrong: classic wrong programs, each under many seeds. It prints three tables:
// failing runs of 1,000, the first failing seed, and the time that the runs took.
//
//     node recorder/bench/strategies.mjs [--seeds N] [--jobs N] [--programs NAME,..]

import { readdirSync } from "node:fs";
import { parseArgs } from "node:util";
import { fileURLToPath } from "node:url";
import { isMain } from "./is-main.mjs";
import { counted } from "./wrong.mjs";

const FOLDER = new URL("./programs/", import.meta.url);

/** The names of the programs. */
export const PROGRAMS = readdirSync(FOLDER).filter((name) => name.endsWith(".mjs")).map((name) => name.slice(0, -4));

/** What is measured: the title of a column, and its options. */
export const COLUMNS = Object.freeze([
  { title: "mixed", options: { strategy: "mixed" } },
  { title: "partial-order", options: { strategy: "partial-order" } },
  { title: "switch:0.1", options: { strategy: "switch:0.1" } },
  { title: "switch:0.3", options: { strategy: "switch:0.3" } },
  { title: "switch:0.85", options: { strategy: "switch:0.85" } },
  { title: "uniform", options: { strategy: "uniform" } },
  { title: "uniform, everywhere", options: { strategy: "uniform", everywhere: true } },
]);

/**
 * @typedef {object} Measured the results of a program's runs under one strategy
 * @property {number} runs
 * @property {number} failed
 * @property {number | undefined} first the least seed of those that failed
 * @property {number} seconds
 */

/**
 * Runs a program under many seeds.
 * @param {string} name
 * @param {object} options of the library
 * @param {{ seeds: number, jobs: number }} amount
 * @returns {Promise<Measured>}
 */
export async function measured(name, options, amount) {
  const begun = performance.now();
  const { failed, first } = await counted(fileURLToPath(new URL(`${name}.mjs`, FOLDER)), amount, options);
  return { runs: amount.seeds, failed, first, seconds: (performance.now() - begun) / 1_000 };
}

/**
 * A table as Markdown has it.
 * @param {string} title of its first column
 * @param {{ name: string, cells: Measured[] }[]} rows
 * @param {(cell: Measured) => string} shown
 */
function table(title, rows, shown) {
  const line = (/** @type {string[]} */ cells) => `| ${cells.join(" | ")} |`;
  const body = rows.map(({ name, cells }) => line([name, ...cells.map(shown)]));
  return [
    line([title, ...COLUMNS.map((column) => column.title)]), line(["---", ...COLUMNS.map(() => "---:")]), ...body, "",
  ].join("\n");
}

/** @param {Measured} cell @returns {string} of 1,000 runs, rounded to three digits */
const share = ({ failed, runs }) => String(Number(((failed / runs) * 1_000).toPrecision(3)));

/**
 * Measures programs under each strategy.
 * @param {string[]} names
 * @param {{ seeds: number, jobs: number }} amount
 * @param {(name: string) => void} [onProgram] is called with the name of the next one
 * @returns {Promise<string>} the tables
 */
export async function tables(names, amount, onProgram = () => {}) {
  const rows = [];
  for (const name of names) {
    onProgram(name);
    const cells = [];
    for (const { options } of COLUMNS) cells.push(await measured(name, options, amount));
    rows.push({ name, cells });
  }
  return [
    table("Failing runs of 1,000", rows, share),
    table("First failing seed", rows, ({ first }) => (first === undefined ? "none" : String(first))),
    table("Seconds", rows, ({ seconds }) => seconds.toFixed(1)),
  ].join("\n");
}

async function main() {
  /** @type {Record<string, { type: "string", default: string }>} */
  const options = {
    seeds: { type: "string", default: "1000" },
    jobs: { type: "string", default: "1" },
    programs: { type: "string", default: PROGRAMS.join(",") },
  };
  const { values } = parseArgs({ options });
  const amount = { seeds: Number(values.seeds), jobs: Number(values.jobs) };
  const report = (/** @type {string} */ name) => process.stderr.write(`${name}\n`);
  process.stdout.write(await tables(String(values.programs).split(","), amount, report));
}

if (isMain(import.meta.url)) await main();
