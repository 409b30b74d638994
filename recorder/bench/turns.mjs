#!/usr/bin/env node
// Is the recorder slower than another commit's? This measures processor time by turns: each turn runs the recorder of
// this tree and that of the commit on the same programs. Other work on the machine then slows both.
//
//     node recorder/bench/turns.mjs COMMIT [--turns N] [--seeds N] [--node COMMAND] [NAME ..]
//
// Without a NAME all programs of COURSES are run. The recorder of this tree is run by COMMAND, such as "tools/with node
// -- node", which may be another node. The commit's is run by the node that runs this. The commit's files are put into
// a temporary folder. Bash, git and tar are needed.

import { execFileSync, spawnSync } from "node:child_process";
import { mkdirSync, mkdtempSync, rmSync } from "node:fs";
import { tmpdir } from "node:os";
import { join } from "node:path";
import { fileURLToPath } from "node:url";
import { parseArgs } from "node:util";
import { isMain } from "./is-main.mjs";

const ROOT = fileURLToPath(new URL("../../", import.meta.url));
const PUBLISHED = join(ROOT, "tests/published");

/**
 * What is run, by its name: the words of the recorder's command line. The files are this tree's, for both.
 * @type {Record<string, string[]>}
 */
const COURSES = {
  "mutex-naive": [join(ROOT, "recorder/examples/mutex-naive.agents.mjs")],
  "bounded-queue": [join(ROOT, "recorder/examples/bounded-queue.agents.mjs")],
  "bulk-overlap": [join(ROOT, "recorder/tests/known/bulk-overlap.mjs"), "--races", "allow"],
  "pool": ["--program-output", "none", "--program", join(ROOT, "recorder/tests/programs/pool/right.mjs")],
  "node-cwd": ["--program-output", "none", "--program", join(PUBLISHED, "node/cwd.mjs")],
};

/** V8 compiles and collects in the threads that ask for it: in threads of its own this takes differing times. */
const ALONE = "--single-threaded";

/** One job: several would slow each other. */
const WORDS = ["--jobs", "1", "--format", "json"];

/** Bash writes a command's processor time, and that of all processes that it began, to its last line. */
const TIMED = 'TIMEFORMAT="%3U %3S"; time "$@" > /dev/null';

/** @typedef {{ before: number[], now: number[] }} Taken the seconds of processor time of each turn */

/**
 * Runs a command.
 * @param {string[]} command
 * @param {Record<string, string | undefined>} env
 * @returns {number} the seconds of processor time that it took
 */
function secondsOf(command, env) {
  const { status, stderr } = spawnSync("bash", ["-c", TIMED, "turns", ...command], { encoding: "utf8", env });
  const found = /(\d+\.\d+) (\d+\.\d+)\n$/.exec(stderr ?? "");
  // Status 1: some runs failed, as those of wrong programs do.
  if ((status !== 0 && status !== 1) || found === null) {
    throw new Error(`${command.join(" ")} ended with status ${status}: ${stderr}`);
  }
  return Number(found[1]) + Number(found[2]);
}

/** @param {number[]} list @returns {number} */
export const median = (list) => {
  const sorted = [...list].sort((one, other) => one - other);
  const middle = sorted.length >> 1;
  return sorted.length % 2 === 1 ? sorted[middle] : (sorted[middle - 1] + sorted[middle]) / 2;
};

/** @param {Taken} taken @returns {number[]} each turn's processor time, as a multiple of the time before */
const ratiosOf = ({ before, now }) => now.map((seconds, turn) => seconds / before[turn]);

/**
 * The machine's speed may differ from turn to turn, and hardly differs within a turn.
 * @param {Taken} taken
 * @returns {number} how many times the processor time of before: the median of the turns' ratios
 */
export const ratioOf = (taken) => median(ratiosOf(taken));

/** @param {Taken[]} list @returns {Taken} all of them together, turn by turn */
export function sumOf(list) {
  const add = (/** @type {number[][]} */ rows) =>
    rows[0].map((_, turn) => rows.reduce((sum, row) => sum + row[turn], 0));
  return { before: add(list.map(({ before }) => before)), now: add(list.map(({ now }) => now)) };
}

/** @param {string} name @param {Taken} taken @returns {string} a row of the table */
export function rowOf(name, taken) {
  const ratios = ratiosOf(taken);
  const spread = `${Math.min(...ratios).toFixed(2)} to ${Math.max(...ratios).toFixed(2)}`;
  const seconds = [taken.before, taken.now].map((list) => median(list).toFixed(2));
  return `| ${name} | ${seconds.join(" | ")} | ${ratioOf(taken).toFixed(3)} | ${spread} |`;
}

/**
 * Puts the recorder of a commit into a folder.
 * @param {string} commit
 * @param {string} folder
 */
function unpack(commit, folder) {
  mkdirSync(folder);
  const how = /** @type {const} */ ({ cwd: ROOT, maxBuffer: 2 ** 30, stdio: ["ignore", "pipe", "pipe"] });
  const archive = execFileSync("git", ["archive", commit, "package.json", "recorder"], how);
  execFileSync("tar", ["-x", "-C", folder], { input: archive });
}

/**
 * Puts the files of node's that `node-cwd` runs into a folder.
 * @param {Record<string, string | undefined>} env which names the folder
 */
function fetchNode(env) {
  const [fetching, table] = ["fetching.mjs", "table.mjs"].map((name) => JSON.stringify(join(PUBLISHED, name)));
  const code = `const { fetchSource } = await import(${fetching}); const { productsOf } = await import(${table});`
    + 'for (const { sources } of productsOf(["node-cwd"])) sources.forEach(fetchSource);';
  const words = ["--no-deprecation", "--input-type=module", "--eval", code];
  execFileSync(process.execPath, words, { cwd: PUBLISHED, env });
}

/**
 * @param {string[]} names
 * @param {{ seeds: string, turns: number }} amount
 * @param {{ before: string[], now: string[] }} commands the recorders
 * @param {Record<string, string | undefined>} env
 * @returns {Map<string, Taken>} by the programs' names
 */
function measured(names, { seeds, turns }, commands, env) {
  const taken = new Map(names.map((name) => [name, /** @type {Taken} */ ({ before: [], now: [] })]));
  const sides = /** @type {("before" | "now")[]} */ (["before", "now"]);
  for (let turn = 0; turn < turns; turn += 1) {
    for (const [name, lists] of taken) {
      // The one that is first in a turn is second in the next.
      for (const side of turn % 2 === 0 ? sides : [...sides].reverse()) {
        lists[side].push(secondsOf([...commands[side], ...COURSES[name], "--seeds", `1..${seeds}`, ...WORDS], env));
      }
    }
  }
  return taken;
}

/** @param {Map<string, Taken>} taken @returns {string} */
function tableOf(taken) {
  const rows = [...taken].map(([name, lists]) => rowOf(name, lists));
  const all = taken.size > 1 ? [rowOf("all", sumOf([...taken.values()]))] : [];
  const head = ["| Program | Before, s | Now, s | Ratio | Turns |", "|---|---:|---:|---:|---|"];
  return [...head, ...rows, ...all, ""].join("\n");
}

/** @returns {{ commit: string, names: string[], values: { turns: string, seeds: string, node: string } }} */
function asked() {
  const { values, positionals: [commit, ...names] } = parseArgs({
    allowPositionals: true,
    options: {
      turns: { type: "string", default: "5" },
      seeds: { type: "string", default: "300" },
      node: { type: "string", default: process.execPath },
    },
  });
  const all = Object.keys(COURSES);
  const unknown = names.find((name) => !all.includes(name));
  if (commit === undefined) throw new Error("name a commit, such as HEAD");
  if (unknown !== undefined) throw new Error(`there is no program ${unknown}: it is one of ${all.join(", ")}`);
  const numbers = [values.turns, values.seeds].map(Number);
  if (!numbers.every((each) => each >= 1)) throw new Error("--turns and --seeds are 1 at least");
  return { commit, names: names.length > 0 ? names : all, values: /** @type {any} */ (values) };
}

/** Measures as the command line says, and prints a table. */
function main() {
  const { commit, names, values } = asked();
  const room = mkdtempSync(join(tmpdir(), "turns-"));
  try {
    const env = { ...process.env, NODE_EXTRA_CA_CERTS: undefined, SABSIM_PUBLISHED: room };
    fetchNode(env);
    unpack(commit, join(room, "before"));
    const commands = {
      before: [process.execPath, ALONE, join(room, "before/recorder/record.mjs")],
      now: [...values.node.split(" "), ALONE, join(ROOT, "recorder/record.mjs")],
    };
    const amount = { seeds: values.seeds, turns: Number(values.turns) };
    process.stdout.write(tableOf(measured(names, amount, commands, env)));
  } finally {
    rmSync(room, { recursive: true });
  }
}

if (isMain(import.meta.url)) {
  try {
    main();
  } catch (error) {
    process.stderr.write(`turns: ${/** @type {Error} */ (error).message}\n`);
    process.exitCode = 2;
  }
}
