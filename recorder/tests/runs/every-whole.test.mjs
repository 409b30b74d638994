// What `--all` says if it couldn't do all: which moments couldn't be compared, which seeds weren't run, and what no run
// can show.

import assert from "node:assert/strict";
import { test } from "node:test";
import { dataOf } from "../../lib/every/data.mjs";
import { everyText } from "../../lib/every/every-text.mjs";
import { Every } from "../../lib/every/every.mjs";
import { shownFindings } from "../../lib/every/showing.mjs";
import { everyOptions } from "../../lib/library/every-schedule.mjs";
import { TIME_OVER, TimeOver } from "../../lib/processes/time-over.mjs";
import { everySchedule } from "../../recorder.mjs";
import { commandHere } from "../helpers/command-here.mjs";
import { COUNTS, FEW_WORKERS, moduleOf } from "../helpers/common.mjs";

/** An agent that makes some calls before it throws. @param {number} calls */
const throwsAfter = (calls) => `export const setup = { agents: 2, buffers: [8] };
export default function agent({ buffers, agent: self }) {
  const words = new Int32Array(buffers[0]);
  if (self === 1) return;
  for (let at = 0; at < ${calls}; at += 1) Atomics.load(words, 0);
  throw new Error("at last");
}
`;

/** Agents whose lock is a proxy: its traps are called by the engine. */
const BY_PROXY = `export const setup = { agents: 2, buffers: [8] };
export default function agent({ buffers }) {
  const words = new Int32Array(buffers[0]);
  const lock = new Proxy({}, { get: () => Atomics.add(words, 0, 1) });
  return void (lock.one + lock.two);
}
`;

test("a finding that needs more calls than a script may have is no contradiction", async (context) => {
  const module = moduleOf(context, throwsAfter(1_200));
  const options = { ...FEW_WORKERS, module, seeds: 1, limits: /** @type {const} */ ("allow"), within: 600 };
  const { closed, found } = await everySchedule(options);
  assert.equal(closed, true);
  const [{ detail, kind, notShown }] = found;
  assert.deepEqual([kind, detail, notShown], ["threw", null, "it needs 1,200 calls of agent 0"]);
});

test("what there is no time to show, or no room, is said for each finding", async () => {
  const one = {
    kind: "threw", text: "", states: 1, changes: 0, acts: 1, isEarly: false, goesOn: false, spins: false,
    choices: [[], []],
  };
  const findings = /** @type {any[]} */ ([
    { ...one, row: [0], calls: [1, 0] }, { ...one, row: [1], calls: [1, 1_001] },
    { ...one, row: [0, 0, 0], calls: [3, 0] },
    ...Array.from({ length: 18 }, () => ({ ...one, row: [0], calls: [1, 0] })),
  ]);
  const shown = await shownFindings(findings, /** @type {any} */ ({ maxMoves: 2 }), AbortSignal.abort());
  assert.deepEqual(shown.map(({ why }) => why), [
    TIME_OVER, "it needs 1,001 calls of agent 1", "it needs 3 moves, and 2 are the most",
    ...Array(17).fill(TIME_OVER), "only the first 20 are shown by runs",
  ]);
});

test("seeds for which there is no time are named, and not all was done", async (context) => {
  const over = new AbortController();
  const options = everyOptions({ ...FEW_WORKERS, module: moduleOf(context, COUNTS), seeds: 100_000 }, () => undefined);
  const every = new Every(options, { over: over.signal });
  const timer = setInterval(() => {
    if (every.outcomes.length >= 400) over.abort(new TimeOver(TIME_OVER));
  }, 20);
  const data = dataOf(await every.run());
  clearInterval(timer);
  assert.equal(data.isWhole, false);
  // On a busy machine the second learning may not be done by then.
  if (!data.closed) return;
  const first = data.realRuns + data.notCompared + 1;
  assert.deepEqual(data.notRun, [{ first, last: 100_000 }]);
  assert.match(everyText(data), /\n {2}its time was over, with the seeds \d+ to 100000 not run\n/);
});

test("the time bounds a search, what follows it, and the seeds", async (context) => {
  const module = moduleOf(context, COUNTS);
  const { closed, isWhole, open } = await everySchedule({ ...FEW_WORKERS, module, seeds: 2, within: 0.001 });
  assert.deepEqual([closed, isWhole], [false, false]);
  assert.match(open ?? "", /its time was over/);
  const done = await commandHere([module, "--all", "--within", "0.001", "--seeds", "1..7"]);
  assert.equal(done.status, 4, done.stderr);
  assert.match(done.stdout, /\nits time was over, with the seeds 1 to 7 not run, after 0 of 7 runs\n/);
});

test("moments that can't be compared are counted by kind, with the line of the first one", async (context) => {
  const module = moduleOf(context, BY_PROXY);
  const closed = await commandHere([module, "--all", "--seeds", "1..2"]);
  assert.equal(closed.status, 0, closed.stderr);
  const kinds = /\n {2}\d+ moments? couldn't be compared .*:\n {4}\d+ at agents\.mjs:4:51 first: .*engine/;
  assert.match(closed.stdout, kinds);
  const open = await commandHere([module, "--all", "--states", "3", "--seeds", "1..2"]);
  assert.equal(open.status, 4, open.stderr);
  assert.match(open.stdout, kinds);
  assert.match(open.stdout, /\n {2}the agents of automaton 0 have \d+ nodes; the results at agents\.mjs:4:51 lead/);
  assert.match(open.stdout, /\n {2}to change: call Atomics from your own loops .*\n {2}to change: fewer /);
  const { advice, hidden } = await everySchedule({ ...FEW_WORKERS, module, seeds: 1 });
  assert.deepEqual([advice.length, hidden.map(({ line }) => line)], [1, ["agents.mjs:4:51"]]);
});
