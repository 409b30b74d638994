// How rarely the programs of `programs/` fail that their table calls rare, if each thread that can go on is as likely.

import assert from "node:assert/strict";
import { after, before, describe, it } from "node:test";
import { TableRuns, demandKnown } from "../helpers/program-findings.mjs";
import { PROGRAMS } from "../programs/table.mjs";

/** Of a rare program at most one run in so many fails. */
const RARE = 50;

const SEEDS = 2 * RARE;

// In the same threads one program is run after the other.
describe("rare programs, if each thread that can go on is as likely", { concurrency: 1 }, () => {
  /** @type {TableRuns} */
  let runs;
  before(async () => { runs = await TableRuns.open({ strategy: "uniform", everywhere: true }); });
  after(() => runs.close());

  for (const program of PROGRAMS.filter(({ isRare, notYet }) => isRare && notYet === undefined)) {
    it(`${program.name} fails in at most one run in ${RARE}`, async () => {
      const outcomes = await runs.runs(program, { last: SEEDS });
      const failed = outcomes.filter(({ fails }) => fails);
      assert.ok(failed.length <= SEEDS / RARE, `${failed.length} of ${SEEDS} runs have failed`);
      demandKnown(program, outcomes);
    });
  }
});
