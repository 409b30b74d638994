// Programs with known answers: how the runs of 100 seeds of each end is what its module says in `known`, which was
// reasoned out by the standard. `SEEDS=1000 npm test -- known` tries more. `endings` are those that occur, `may` those
// that need not, and `races` the pairs of lines of code that race: for each side a text that its line has. `within` is
// how many seeds are tried if an ending is rare. Nothing else is found, and nothing is missed. Other judges look at
// some of the runs, too.

import assert from "node:assert/strict";
import { readFileSync, readdirSync } from "node:fs";
import { after, before, describe, it } from "node:test";
import { keptScript } from "../../lib/shorter/kept-script.mjs";
import { AskedProcesses } from "../helpers/asked-processes.mjs";
import { demandOfModule, demandOfNative, demandOfSlowJudge } from "../helpers/known-judged.mjs";
import { hasSabsim, withSabsim } from "../helpers/needs.mjs";
import { seedsTried } from "../helpers/seeds-tried.mjs";

/** @typedef {import("../helpers/known-process.mjs").Made} Made */
/** @typedef {import("../helpers/known-process.mjs").Judged} Judged */

const FOLDER = new URL("../known/", import.meta.url);
const NAMES = readdirSync(FOLDER).filter((name) => name.endsWith(".mjs"));

const CHECKED = 25;

/** The seeds of each program, if none of its endings is rare. */
const USUAL = 100;

/** For so many seeds others judge the run. About so many of these the simulator is asked; so many are made by rows. */
const JUDGED = 5;
const ASKED = 2;
const BY_ROWS = 2;

const LEAST_PROGRAMS = 36;

// One process makes the runs of all programs, since each further one would have its own code compiled anew. The native
// program starts for each run that it checks, so with it several processes are faster.
const SIDE_BY_SIDE = hasSabsim ? 4 : 1;

const processes = new AskedProcesses("recorder/tests/helpers/known-process.mjs", SIDE_BY_SIDE);
after(() => processes.end());

/**
 * How the runs of a program end, a few runs with all that is known about them, and some of these made by their rows.
 * @param {string} name of its file
 * @param {number} seeds how many
 * @returns {Promise<{ made: Made[], judged: Judged[], forced: Judged[] }>}
 */
const runsOf = (name, seeds) => processes.ask({
  module: new URL(name, FOLDER).href, seeds, checkEvery: CHECKED, judged: JUDGED, again: BY_ROWS,
});

/** How often each value occurs, and what it occurred with first. */
function counted(entries) {
  const counts = new Map();
  for (const [value, seed] of entries) {
    const { count, first } = counts.get(value) ?? { count: 0, first: seed };
    counts.set(value, { count: count + 1, first });
  }
  return counts;
}

/** @param {Map<string, { count: number, first: number }>} counts */
const shown = (counts) => [...counts].map(([value, { count, first }]) => `${count} ${value}, seed ${first} the first`);

/**
 * The text of a line of code.
 * @param {string} place file and line
 */
function lineAt(place) {
  const [, file, line] = /^(.*\.mjs):(\d+)$/.exec(place) ?? assert.fail(`no line of code is reported: ${place}`);
  return readFileSync(new URL(file, FOLDER), "utf8").split("\n")[line - 1].trim();
}

/** Whether two lines are those of a known pair, whichever comes first. */
function areOf([one, other], lines) {
  const [first, second] = lines.map(lineAt);
  const match = (left, right) => new RegExp(one).test(left) && new RegExp(other).test(right);
  return match(first, second) || match(second, first);
}

/** The endings that occur are the known ones. */
function demandEndings({ endings, may = [] }, made) {
  const found = counted(made.map(({ ending, seed }) => [ending, seed]));
  const needed = [...found.keys()].filter((ending) => !may.includes(ending));
  assert.deepEqual(needed.sort(), [...endings].sort(), shown(found).join("; "));
}

/** The pairs of lines that race are the known ones, and each of these is reported by one pair of lines. */
function demandRaces({ races = [] }, made) {
  const withoutColumn = (line) => line.replace(/:\d+$/, "");
  const pairs = made.flatMap((run) =>
    run.races.map((lines) => [lines.map(withoutColumn).sort().join(" and "), run.seed]));
  const found = counted(pairs);
  for (const known of races) {
    const matching = [...found.keys()].filter((pair) => areOf(known, pair.split(" and ")));
    assert.equal(matching.length, 1, `${known.join(" and ")} is reported ${matching.length} times: ${shown(found)}`);
    found.delete(matching[0]);
  }
  assert.deepEqual(shown(found), [], "races that aren't known");
}

/** Every run that was handed on whole has a script with all its ordinary writes, and the simulator has checked it. */
function demandChecks(made) {
  const whole = made.filter(({ isWhole }) => isWhole);
  assert.deepEqual(whole.filter(({ scriptHolds }) => scriptHolds !== "all").map(({ noScript }) => noScript), []);
  assert.ok(whole.length >= made.length / CHECKED);
  assert.deepEqual(made.filter(({ checked }) => checked), whole);
}

/** A run that is made by its row is the same run, and the row of its script is that row. */
function demandRows(judged, forced) {
  const runOf = (/** @type {Judged} */ { outcome, divergence }) => ({ outcome, divergence });
  const free = judged.slice(0, BY_ROWS);
  assert.deepEqual(forced.map(runOf), free.map(runOf));
  for (const { outcome: { script, row } } of free) {
    assert.deepEqual(keptScript(script, "it").draws.map(({ agent }) => agent), row);
  }
}

it("programs with known answers are many", () => assert.ok(NAMES.length >= LEAST_PROGRAMS));

describe("programs with known answers", { concurrency: SIDE_BY_SIDE }, () => {
  for (const name of NAMES) {
    describe(name.replace(".mjs", ""), () => {
      /** @type {Awaited<ReturnType<typeof runsOf>>} */
      let runs;
      /** @type {any} */
      let known;
      before(async () => {
        ({ known } = await import(new URL(name, FOLDER).href));
        const seeds = seedsTried(known.within ?? USUAL);
        runs = await runsOf(name, seeds);
        assert.deepEqual([runs.made.length, runs.judged.length], [seeds, JUDGED]);
      });

      it("ends and races as it is known", () => {
        const { made, judged, forced } = runs;
        demandEndings(known, made);
        demandRaces(known, made);
        demandChecks(made);
        demandRows(judged, forced);
      });

      it("races where the slow judge says so", () => runs.judged.forEach(demandOfSlowJudge));
      it("is for the module what it is for the recorder", () => runs.judged.slice(0, ASKED).forEach(demandOfModule));
      it("is the same for the native program", withSabsim, () => runs.judged.slice(0, ASKED).forEach(demandOfNative));
    });
  }
});
