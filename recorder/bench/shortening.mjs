// A table of how far failing runs are shortened. For each program it has the first failing runs by their seeds: the
// changes of agents and the calls, as they were found and as they are kept. It also has how many runs that took, and
// how long.
//
// usage: node recorder/bench/shortening.mjs [MODULE ..]
//
// Without a module of agents it takes the wrong programs of recorder/tests/known, recorder/examples and, if it is
// there, recorder/bench/programs. RUNS in the environment says how many failing runs of each; 5 if it isn't given.

import { existsSync, readdirSync } from "node:fs";
import { pathToFileURL } from "node:url";
import { Group } from "../lib/run/group.mjs";
import { shorten } from "../lib/shorter/shorten.mjs";

const FOLDERS = ["../tests/known/", "../examples/", "./programs/"].map((path) => new URL(path, import.meta.url));
const SEEDS = 3_000;
const BATCH = 50;
const WANTED = Number(process.env.RUNS ?? 5);

/** @param {URL} folder @returns {URL[]} the modules of agents in it */
function modulesIn(folder) {
  if (!existsSync(folder)) return [];
  const isExample = folder === FOLDERS[1];
  const names = readdirSync(folder).filter((name) => name.endsWith(isExample ? ".agents.mjs" : ".mjs"));
  return names.sort().map((name) => new URL(name, folder));
}

/**
 * The first failing runs of a program that meet no limit.
 * @param {Group} group
 */
async function failingRuns(group) {
  /** @type {import("../lib/run/outcome.mjs").Outcome[]} */
  const failing = [];
  for (let first = 1; first <= SEEDS && failing.length < WANTED; first += BATCH) {
    const seeds = Array.from({ length: BATCH }, (_, at) => ({ seed: first + at, whole: false, isTrial: true }));
    await group.run(seeds, (outcome) => {
      if (outcome.fails && outcome.ending !== "limit") failing.push(outcome);
    });
  }
  return failing.slice(0, WANTED);
}

/** @param {number[]} numbers @returns {string} the least, and the greatest if that differs */
function range(numbers) {
  const [least, greatest] = [Math.min(...numbers), Math.max(...numbers)];
  return least === greatest ? `${least}` : `${least} to ${greatest}`;
}

/**
 * A row of the table; none if no run fails.
 * @param {URL} module
 */
async function rowOf(module) {
  const group = await Group.open({ module: module.href, args: [], maxMoves: 100_000, seconds: 5, fresh: false });
  try {
    const rows = [];
    for (const { seed } of await failingRuns(group)) {
      const { outcome } = await group.one({ seed, whole: false });
      const begun = performance.now();
      const { shortened } = await shorten(group, outcome);
      rows.push({ ...shortened, ending: outcome.ending, milliseconds: Math.round(performance.now() - begun) });
    }
    if (rows.length === 0) return undefined;
    const stopped = rows.filter((row) => row.stopped !== undefined).length;
    return [
      /** @type {string} */ (module.pathname.split("/").at(-1)).replace(/(\.agents)?\.mjs$/, ""),
      [...new Set(rows.map(({ ending }) => ending))].join(", "), `${rows.length}`,
      range(rows.map(({ changes }) => changes.before)), range(rows.map(({ changes }) => changes.after)),
      range(rows.map(({ calls }) => calls.before)), range(rows.map(({ calls }) => calls.after)),
      `${range(rows.map(({ runs }) => runs))}${stopped === 0 ? "" : ` (${stopped} stopped)`}`,
      range(rows.map(({ milliseconds }) => milliseconds)),
    ];
  } finally {
    await group.close();
  }
}

const HEAD = ["program", "ending", "runs", "changes", "shortest", "calls", "shortest", "runs to it", "ms"];

/** @param {string[]} cells */
const printed = (cells) => process.stdout.write(`| ${cells.join(" | ")} |\n`);

const given = process.argv.slice(2).map((path) => pathToFileURL(path));
printed(HEAD);
printed(HEAD.map(() => "---"));
for (const module of given.length > 0 ? given : FOLDERS.flatMap(modulesIn)) {
  const row = await rowOf(module);
  if (row !== undefined) printed(row);
}
