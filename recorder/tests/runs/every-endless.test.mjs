// `--all` of agents that never end: that none does is no finding, and real runs are cut.

import assert from "node:assert/strict";
import { test } from "node:test";
import { pathToFileURL } from "node:url";
import { dataOf } from "../../lib/every/data.mjs";
import { CUT_AFTER, Every } from "../../lib/every/every.mjs";
import { everyText } from "../../lib/every/every-text.mjs";
import { learnApart } from "../../lib/every/learning/apart.mjs";
import { searched } from "../../lib/every/search/searched-file.mjs";
import { needFound } from "../../lib/every/second-search.mjs";
import { everyOptions } from "../../lib/library/every-schedule.mjs";
import { NotAsLearned } from "../../recorder.mjs";
import { commandHere } from "../helpers/command-here.mjs";
import { FEW_WORKERS, moduleOf } from "../helpers/common.mjs";

const ADVICE = "write `while (again())` in place of a loop that never ends: a lost wake-up is a deadlock then";

/**
 * @param {number} agents
 * @param {string} round what an agent does again and again
 * @param {string} [more] lines behind the agent
 */
const endless = (agents, round, more = "") => `export const setup = { agents: ${agents}, buffers: [8] };
export default function agent({ buffers, agent: self }) {
  const words = new Int32Array(buffers[0]);
  for (;;) {
    ${round}
  }
}
${more}`;

const ADDS = "Atomics.store(words, 0, Atomics.load(words, 0) === 0 ? 1 : 0);";

/** Each agent locks and unlocks. */
const LOCKS = `let seen = Atomics.compareExchange(words, 0, 0, 1);
    if (seen === 1) seen = Atomics.exchange(words, 0, 2);
    while (seen !== 0) {
      Atomics.wait(words, 0, 2);
      seen = Atomics.exchange(words, 0, 2);
    }
    if (Atomics.exchange(words, 0, 0) === 2) Atomics.notify(words, 0, 1);`;

/**
 * Tries all schedules.
 * @param {string} module
 * @param {number} seeds
 */
async function tried(module, seeds) {
  const options = everyOptions({ ...FEW_WORKERS, module, seeds }, () => undefined);
  const every = new Every(options, {});
  return { data: dataOf(await every.run()), outcomes: every.outcomes };
}

test("agents that never end pass, each real run is cut, and the summary says so", async (context) => {
  const done = await commandHere([moduleOf(context, endless(3, LOCKS)), "--all", "--seeds", "1..4"]);
  assert.deepEqual([done.status, done.stderr], [0, ""]);
  const [first, cut, change, states, learned] = done.stdout.split("\n");
  assert.equal(first, "every schedule of 3 agents was tried: none deadlocks, throws, has a data race or fails check; "
    + "no agent ever ends");
  assert.equal(cut, "  each real run was cut when an agent had made 100 calls");
  assert.equal(change, `  to change: ${ADVICE}`);
  assert.match(states, /^ {2}[\d,]+ states, [\d,]+ acts; 0 final states$/);
  assert.match(learned, /^ {2}the search is proved; .*; 4 real runs agree$/);
});

test("a cut run has as many calls of one agent, fails nothing, and `check` isn't called", async (context) => {
  const check = "export const check = () => { throw new Error(\"called\"); };\n";
  const { data, outcomes } = await tried(moduleOf(context, endless(2, ADDS, check)), 3);
  assert.deepEqual([data.closed, data.neverEnds, data.found, data.realRuns], [true, true, [], 3]);
  assert.deepEqual(data.advice, [ADVICE]);
  assert.deepEqual(outcomes.map(({ ending, fails }) => `${ending} ${fails}`), ["cut false", "cut false", "cut false"]);
  for (const { detail, progress } of outcomes) {
    const most = progress.map(({ returned }) => returned).indexOf(CUT_AFTER);
    assert.ok(progress.every(({ calls }) => calls <= CUT_AFTER), JSON.stringify(progress));
    assert.equal(detail, `agent ${most} has made 100 calls`);
  }
});

test("what agents that never end do wrong is found and shown", async (context) => {
  const throwing = `${ADDS}\n    if (Atomics.load(words, 0) === 1 && self === 1) throw new Error("seen");`;
  const threw = await tried(moduleOf(context, endless(2, throwing)), 2);
  assert.deepEqual([threw.data.neverEnds, threw.data.found.map(({ kind, notShown }) => [kind, notShown])],
    [true, [["threw", null]]]);
  assert.match(everyText(threw.data), /^every schedule of 2 agents was tried: agents can throw; no agent ever ends\n/);
  const racing = await tried(moduleOf(context, endless(2, "words[1] += 1; words[1] = 0; Atomics.load(words, 0);")), 2);
  assert.deepEqual([...new Set(racing.data.found.map(({ kind, notShown }) => `${kind} ${notShown}`))], ["race null"]);
  const waiting = "Atomics.wait(words, 0, 0);";
  const deadlock = await tried(moduleOf(context, endless(2, waiting)), 2);
  assert.deepEqual([deadlock.data.found.map(({ kind }) => kind), deadlock.data.advice], [["deadlock"], []]);
});

test("if one agent can end, it is a finding that agents go on for ever", async (context) => {
  const { data } = await tried(moduleOf(context, endless(2, `if (self === 1) return; ${ADDS}`)), 1);
  assert.deepEqual([data.neverEnds, data.found.map(({ kind }) => kind)], [false, ["no way out"]]);
  assert.match(everyText(data), /^every schedule of 2 agents was tried: agents can go on for ever\n/);
});

test("a search of their file still finds that there is no way out", async (context) => {
  const module = pathToFileURL(moduleOf(context, endless(2, ADDS))).href;
  const bounds = { timeouts: /** @type {const} */ ("early"), limit: 1_000, within: 60 };
  const report = await learnApart({ module, args: [], place: {}, ...bounds }, { seconds: 10 });
  assert.deepEqual([report.neverEnds, report.findings], [true, []]);
  const result = searched(report.file, bounds);
  assert.equal(result.no_way_out?.states, result.states);
  needFound([], result, true);
  assert.throws(() => needFound([], result), NotAsLearned);
});
