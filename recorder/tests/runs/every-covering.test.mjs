// Real runs of `--all` by schedules that go over each edge of the automata, if no seeds are given.

import assert from "node:assert/strict";
import { fileURLToPath } from "node:url";
import { test } from "node:test";
import { coveringRuns, needScheduled } from "../../lib/every/covering-runs.mjs";
import { everyText } from "../../lib/every/every-text.mjs";
import { NotAsLearned, everySchedule } from "../../recorder.mjs";
import { FEW_WORKERS, moduleOf } from "../helpers/common.mjs";

const MUTEX = fileURLToPath(new URL("../agents/three-state-mutex.mjs", import.meta.url));

/** @param {string} body of each of two agents @returns {string} */
const agents = (body) => `export const setup = { agents: 2, buffers: [8] };
export default function agent({ buffers, agent: self }) {
  const words = new Int32Array(buffers[0]);
  ${body}
}`;

test("without seeds, 20 are drawn, and other runs go over each edge", async () => {
  const data = await everySchedule({ ...FEW_WORKERS, module: MUTEX });
  assert.deepEqual([data.closed, data.found, data.notCompared, data.covered?.edges], [true, [], 0, data.covered?.of]);
  assert.equal(data.realRuns, 20 + Number(data.covered?.runs));
  assert.match(everyText(data), /; \d\d real runs agree: \d+ of them go over (\d+) of \1 edges\n/);
  const few = await everySchedule({ ...FEW_WORKERS, module: MUTEX, seeds: 3 });
  assert.deepEqual([few.realRuns, few.covered], [3, null]);
});

test("an edge that drawn runs hardly go over is gone over", async (context) => {
  // Agent 1 makes eight calls while agent 0 is between two of its own.
  const rare = `if (self === 1) { for (let at = 0; at < 8; at += 1) Atomics.add(words, 0, 1); return; }
  const before = Atomics.load(words, 0);
  if (Atomics.load(words, 0) - before === 8) Atomics.store(words, 1, 1);`;
  const data = await everySchedule({ ...FEW_WORKERS, module: moduleOf(context, agents(rare)) });
  assert.deepEqual([data.closed, data.found, data.covered?.edges], [true, [], data.covered?.of]);
});

test("agents that never end have no such runs", async (context) => {
  const never = moduleOf(context, agents("for (;;) Atomics.add(words, 0, self - self);"));
  const { covered, neverEnds, realRuns } = await everySchedule({ ...FEW_WORKERS, module: never });
  assert.deepEqual([covered, neverEnds, realRuns], [null, true, 300]);
});

test("a run that leaves its schedule isn't as learned, and one that can't go by its schedule isn't made", async () => {
  const run = { row: [0, 1], calls: [1, 1], choices: [[], []], spins: false, isWhole: true, edges: 2 };
  /** @type {any[]} */
  const made = [];
  /** @type {any} */
  const runs = {
    further: async (/** @type {any[]} */ wanted, /** @type {(outcome: object) => void} */ onOutcome) => {
      made.push(...wanted);
      for (const { seed } of wanted) onOutcome({ seed, ending: "finished", detail: "" });
    },
  };
  const covering = [run, { ...run, spins: true, edges: 3 }, { ...run, calls: [1_001, 1], edges: 4 },
    { ...run, lastChooser: 1, edges: 5 }, { ...run, isWhole: false, edges: 1 }];
  const covered = await coveringRuns(runs, covering, { first: 21, maxMoves: 100 }, ({ seed }) => seed === 21);
  assert.deepEqual(covered, { runs: 1, edges: 2 });
  assert.deepEqual(made.map(({ isExact, row, seed }) => [isExact, row, seed]),
    [[true, [0, 1], 21], [false, [0, 1], 22]]);
  /** @type {any} */
  const outcome = { seed: 21, ending: "failed", detail: "agent 0 has ended" };
  needScheduled(outcome);
  assert.throws(() => needScheduled({ ...outcome, divergence: { agent: 0, reason: "ended" } }), (error) =>
    error instanceof NotAsLearned && /^a run by a schedule of the search goes otherwise: failed, /.test(error.message));
});
