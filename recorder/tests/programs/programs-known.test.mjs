// The programs of `programs/` under the recorder. A right one passes under each seed. Of a wrong one some run fails,
// and each run that fails is a finding of the table: with its ending, thread, words and lines. What a program needs
// that isn't simulated yet is refused by its name and line.

import assert from "node:assert/strict";
import { after, before, describe, it } from "node:test";
import { TableRuns, demandKnown } from "../helpers/program-findings.mjs";
import { seedsTried } from "../helpers/seeds-tried.mjs";
import { PROGRAMS, urlOf } from "../programs/table.mjs";

/** Under so many seeds a right program passes. `SEEDS=1000 npm test -- known` tries more. */
const SEEDS = seedsTried(25);

/** Under one of so many seeds a wrong program fails. */
const WRONG_SEEDS = 200;

/** @typedef {import("../programs/table.mjs").Program} Program */
/** @typedef {import("../../lib/run/outcome.mjs").Outcome} Outcome */

/** @param {Program} program @param {Outcome[]} outcomes */
function demandRight({ isEndless }, outcomes) {
  const ending = isEndless ? "stuck" : "finished";
  const others = outcomes.filter((outcome) => outcome.ending !== ending);
  assert.deepEqual(others.map(({ seed, detail }) => `seed ${seed}: ${detail}`), []);
}

/**
 * The tests of some programs, in threads of their own.
 * @param {Program[]} all
 * @param {Parameters<typeof TableRuns.open>[0]} [how]
 */
function testEach(all, how = {}) {
  /** @type {TableRuns} */
  let runs;
  before(async () => { runs = await TableRuns.open(how); });
  after(() => runs.close());
  const those = (/** @type {(program: Program) => boolean} */ isOne) => all.filter(isOne);

  for (const program of those(({ right, notYet }) => right && notYet === undefined)) {
    it(`${program.name} passes under ${SEEDS} seeds`, async () => {
      const outcomes = await runs.runs(program, { last: SEEDS });
      assert.equal(outcomes.length, SEEDS);
      demandRight(program, outcomes);
      assert.ok(outcomes[0].checked || outcomes[0].noScript !== undefined);
    });
  }

  for (const program of those(({ right, notYet }) => !right && notYet === undefined)) {
    it(`${program.name} is found`, async () => {
      const outcomes = await runs.untilFailing(program, WRONG_SEEDS);
      assert.ok(outcomes.some(({ fails }) => fails), "no run has failed");
      demandKnown(program, outcomes);
    });
  }

  for (const program of those(({ notYet }) => notYet !== undefined)) {
    it(`${program.name} is refused, since it needs ${program.notYet}`, async () => {
      const [{ ending, detail }] = await runs.runs(program, { last: 1 });
      const folder = new URL("./", urlOf(program)).pathname.split("/").at(-2);
      assert.equal(ending, "failed");
      assert.ok(detail.includes(program.notYet) && /isn't simulated/.test(detail), detail);
      assert.match(detail, new RegExp(`at ${folder}/[\\w-]+\\.[cm]js:\\d+:\\d+`));
    });
  }
}

/** In the same threads one program is run after the other. */
const IN_TURN = { concurrency: 1 };

// One thread of a program goes on at a time. So that this file isn't left alone at the end, two parts go side by side.
// More would take longer, since each has threads of its own.
describe("programs in the recorder", { concurrency: 2 }, () => {
  describe("with known answers", IN_TURN, () => testEach(PROGRAMS.filter(({ isWeb }) => isWeb !== true)));

  describe("for browsers, with known answers", IN_TURN, () => {
    testEach(PROGRAMS.filter(({ isWeb }) => isWeb === true), { web: true });
  });
});
