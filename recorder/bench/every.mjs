// A table of every schedule of many modules, as `everySchedule` tries them: whether all were tried, how many states
// there are, how long it took, and what was found. Beside it is what the real runs of the seeds 1 to 300 find, and what
// the trial before this code had (`every-trial.json`). Bash is needed.
//
// node recorder/bench/every.mjs [--only TEXT] [--within SECONDS] > recorder/bench/EVERY.md

import { spawnSync } from "node:child_process";
import { readFileSync } from "node:fs";
import { fileURLToPath } from "node:url";
import { parseArgs } from "node:util";
import { dataOf } from "../lib/every/data.mjs";
import { Every } from "../lib/every/every.mjs";
import { everyOptions } from "../lib/library/every-schedule.mjs";

const { values } = parseArgs({
  options: {
    // A module that is tried in this process.
    one: { type: "string" },
    only: { type: "string", default: "" },
    // Other work on the machine is not to end a search.
    within: { type: "string", default: "1800" },
  },
});

/** @type {Record<string, { states: string, seconds: number | null, found: string[] }>} */
const TRIAL = JSON.parse(readFileSync(new URL("./every-trial.json", import.meta.url), "utf8"));

/** Bash writes a command's time by the clock, and its processor time with that of all processes that it began, to its
 * last line. */
const TIMED = 'TIMEFORMAT="%3R %3U %3S"; time "$@"';

/**
 * @typedef {object} Tried a row of the table, as far as it is of this code
 * @property {string} states
 * @property {string} moments
 * @property {string[]} found
 * @property {string[]} seedsFind
 * @property {boolean} isClosed
 * @property {string} note
 */

const TITLE = `# Every schedule of many modules

\`recorder/bench/every.mjs\` has made this. Its seconds, by the clock and of all processors, are those of all
that \`everySchedule\` does: with 300 real runs, and the proved search by the module. The trial counted states up to
renaming of agents, merged moments whose futures looked alike in tests, and made no real runs.

| Module | States | Moments | Clock | Processors | Found | Seeds find | Trial: states | Seconds | Found | |
|---|---:|---:|---:|---:|---|---|---:|---:|---|---|`;

/** @param {string[]} kinds @returns {string[]} each once */
const once = (kinds) => [...new Set(kinds)].sort();

/** @param {import("../lib/seeds/job.mjs").CheckedOutcome} outcome of a real run @returns {string[]} what it finds */
function kindsOf({ detail, ending, races }) {
  const threw = ending === "failed" && /^agent \d+ threw /.test(detail);
  const own = ending === "finished" || ending === "race" ? [] : [threw ? "threw" : ending];
  return races.length > 0 ? [...own, "race"] : own;
}

/** @param {string} path @returns {Promise<Tried>} */
async function tried(path) {
  const module = fileURLToPath(new URL(`../${path}`, import.meta.url));
  const wanted = { module, seeds: "1..300", within: Number(values.within) };
  const every = new Every(everyOptions(wanted, () => undefined), {});
  const nothing = { states: "", moments: "", found: [], seedsFind: [], isClosed: false };
  try {
    const { closed, found, moments, notProved, open, realRuns, states } = dataOf(await every.run());
    const notes = [open, notProved, closed && realRuns !== 300 ? `${realRuns} real runs` : null];
    return {
      states: closed ? `${states}` : `>${states}`, moments: `${moments}`, found: once(found.map(({ kind }) => kind)),
      seedsFind: once(every.outcomes.flatMap(kindsOf)), isClosed: closed, note: notes.filter(Boolean).join("; "),
    };
  } catch (problem) {
    const { constructor: { name }, message } = /** @type {Error} */ (problem);
    return { ...nothing, note: `${name}: ${message.split("\n")[0].slice(0, 150)}` };
  }
}

/** @param {string} path @returns {Tried & { clock: number, processors: number }} seconds of a process of its own */
function triedApart(path) {
  const words = [fileURLToPath(import.meta.url), "--one", path, "--within", values.within];
  const command = ["-c", TIMED, "every", process.execPath, ...words];
  const { stderr, stdout } = spawnSync("bash", command, { encoding: "utf8" });
  const [clock, user, system] = stderr.trimEnd().split("\n").slice(-1)[0].split(" ").map(Number);
  return { ...JSON.parse(stdout), clock, processors: user + system };
}

/** @param {string} path @returns {{ cells: string[], isClosed: boolean, clock: number }} */
function rowOf(path) {
  const { clock, found, isClosed, moments, note, processors, seedsFind, states } = triedApart(path);
  const trial = TRIAL[path];
  // A run from which there is no way out meets a limit.
  const isFound = (/** @type {string} */ kind) => found.includes(kind === "limit" ? "no way out" : kind);
  const missed = seedsFind.filter((kind) => !found.includes(kind) && !isFound(kind));
  const notes = [
    note, isClosed && found.join() !== trial.found.join() ? "other findings than the trial" : "",
    isClosed && missed.length > 0 ? `only seeds find: ${missed.join(", ")}` : "",
  ];
  const seconds = [clock, processors].map((each) => each.toFixed(1));
  const own = [path, states, moments, ...seconds, found.join(", "), isClosed ? seedsFind.join(", ") : ""];
  const theirs = [trial.states, `${trial.seconds ?? ""}`, trial.found.join(", ")];
  return { cells: [...own, ...theirs, notes.filter((one) => one !== "").join("; ")], isClosed, clock };
}

/** Prints the table. */
function table() {
  console.log(TITLE);
  /** @type {number[]} */
  const closed = [];
  for (const path of Object.keys(TRIAL).filter((name) => name.includes(values.only))) {
    const { cells, clock, isClosed } = rowOf(path);
    if (isClosed) closed.push(clock);
    console.log(`| ${cells.join(" | ")} |`);
  }
  const within = (/** @type {number} */ most) => closed.filter((seconds) => seconds <= most).length;
  console.log(`\n${closed.length} of these closed: ${within(4)} within 4 s by the clock, ${within(10)} within 10 s.`);
}

if (values.one === undefined) table();
else process.stdout.write(JSON.stringify(await tried(values.one)));
