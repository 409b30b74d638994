// Many seeds: what is found, and that an outcome depends on its seed alone.

import assert from "node:assert/strict";
import { test } from "node:test";
import { commandOptionsOf } from "../../lib/command/options.mjs";
import { moduleUrl } from "../../lib/library/module-url.mjs";
import { Job } from "../../lib/seeds/job.mjs";
import { Runs, outcomesOf as taken } from "../../lib/seeds/runs.mjs";
import { agentsPath, recordCase } from "../helpers/common.mjs";
import { CHECKER } from "../helpers/needs.mjs";

/**
 * The outcomes of some seeds, in the order of the seeds. One job is one in this process, and several are processes.
 * @param {string} name of a module of agents
 * @param {object} options
 */
async function outcomesOf(name, options) {
  const outcomes = [];
  const all = {
    ...commandOptionsOf([agentsPath(name)]), module: moduleUrl(agentsPath(name)), last: 40, checkEvery: 0,
    sabsim: CHECKER, seconds: 5, jobs: 1, ...options,
  };
  const own = all.jobs === 1 ? { job: new Job() } : {};
  for await (const outcome of taken(new Runs(all, own))) outcomes.push(outcome);
  assert.deepEqual(outcomes.map((outcome) => outcome.seed), outcomes.map((_, at) => all.first + at));
  return { outcomes, checked: outcomes.filter((outcome) => outcome.checked).length };
}

/** The first digits of the first buffer at the end of each run. */
const bytesOf = (outcomes) => outcomes.map((outcome) => outcome.state.shown[0]);

const endingsOf = (outcomes) => new Set(outcomes.map((outcome) => outcome.ending));

test("the lost wake-up of a naive mutex is found within 200 seeds, and sabsim agrees", async () => {
  const { outcomes, checked } = await outcomesOf("naive-mutex", { last: 200, checkEvery: 10 });
  const failing = outcomes.filter((outcome) => outcome.ending !== "finished");
  assert.ok(failing.length > 0);
  assert.deepEqual([...endingsOf(failing)], ["deadlock"]);
  const waits = /^agent \d waits at byte 4 of block 0: its call \d+, \["wait", /;
  for (const { detail } of failing) assert.match(detail, waits);
  const others = outcomes.filter((outcome, at) => outcome.ending === "finished" && at % 10 === 0);
  assert.equal(checked, failing.length + others.length);
});

test("the mutex of three states finishes under 200 seeds, each checked", async () => {
  const { outcomes, checked } = await outcomesOf("three-state-mutex", { last: 200, checkEvery: 1 });
  assert.deepEqual([...endingsOf(outcomes)], ["finished"]);
  assert.deepEqual([...new Set(bytesOf(outcomes))], ["0000000009000000"]);
  assert.equal(checked, 200);
});

test("random calls of all kinds, right and wrong, return what sabsim returns", async () => {
  const seen = new Set();
  for (const start of ["1", "2"]) {
    const { outcomes, checked } = await outcomesOf("random", { args: [start], last: 40, checkEvery: 1 });
    assert.equal(checked, 40);
    for (const outcome of outcomes) for (const answer of outcome.answers.flat()) seen.add(answer);
  }
  for (const answer of ["ok", "not-equal", "timed-out", "TypeError", "RangeError", "1", "2", "0n", "-1n", null]) {
    assert.ok(seen.has(answer), String(answer));
  }
});

test("the same seeds give the same scripts byte for byte, whatever the jobs", async () => {
  const one = await outcomesOf("naive-mutex", { checkEvery: 1 });
  const again = await outcomesOf("naive-mutex", { checkEvery: 1 });
  const two = await outcomesOf("naive-mutex", { checkEvery: 1, jobs: 2 });
  assert.deepEqual(again.outcomes, one.outcomes);
  // Each job returns the trace of its own first failing run, and the code that it names.
  const untraced = ({ outcomes }) => outcomes.map((outcome) =>
    ({ ...outcome, trace: undefined, accesses: undefined, sources: undefined }));
  assert.deepEqual(untraced(two), untraced(one));
  assert.ok(new Set(one.outcomes.map((outcome) => outcome.script)).size > 30);
});

test("a run among others is the run that is recorded by itself, in fresh workers too", async () => {
  const { outcomes } = await outcomesOf("cases", { args: ["racy"], agents: 3, buffers: [12], checkEvery: 1, last: 6 });
  const options = { args: ["racy"], agents: 3, buffers: [12], checkEvery: 1, last: 6, fresh: true };
  assert.deepEqual((await outcomesOf("cases", options)).outcomes, outcomes);
  assert.deepEqual(await recordCase("racy", { agents: 3, seed: 5, sabsim: CHECKER, everywhere: false }), outcomes[4]);
  assert.ok(outcomes[4].checked);
});

test("a value that is read and written gets lost under some seeds, and under others not", async () => {
  const { outcomes } = await outcomesOf("cases", { args: ["racy"], agents: 3, buffers: [4], last: 200 });
  assert.deepEqual([...new Set(bytesOf(outcomes))].sort(), ["01000000", "02000000", "03000000"]);
});

test("with switch:0 each agent ends before the next one goes on", async () => {
  const options = { args: ["racy"], agents: 3, buffers: [4], last: 30, strategy: "switch:0" };
  const { outcomes } = await outcomesOf("cases", options);
  assert.deepEqual([...new Set(bytesOf(outcomes))], ["03000000"]);
});

test("state of a module stays from seed to seed, and with fresh workers it doesn't", async () => {
  const last = (outcomes) => bytesOf(outcomes).at(-1);
  const options = { args: ["countsSeeds"], agents: 1, buffers: [4], last: 5 };
  assert.equal(last((await outcomesOf("cases", options)).outcomes), "05000000");
  assert.equal(last((await outcomesOf("cases", { ...options, fresh: true })).outcomes), "01000000");
  // An agent that is left waiting is sent home, and its worker stays too.
  // A run that fails may be made once more for its lines of code, so five is the least.
  const waiting = { ...options, args: ["countsAndWaits"], buffers: [8] };
  const count = Number.parseInt(last((await outcomesOf("cases", waiting)).outcomes).slice(0, 2), 16);
  assert.ok(count >= 5 && count <= 10, `it counted ${count} runs`);
});

test("after an agent that has gone astray the next seeds are recorded all the same", async () => {
  const astray = { exits: "failed", catchesAll: "failed", loops: "limit", manyViews: "limit" };
  for (const [name, ending] of Object.entries(astray)) {
    const options = { args: [name], agents: 2, buffers: [72], last: 2, seconds: 0.3, checkEvery: 1, everywhere: true };
    const { outcomes } = await outcomesOf("cases", options);
    assert.deepEqual(outcomes.map((outcome) => outcome.ending), [ending, ending], name);
  }
});

test("seeds begin at the first one asked for, up to the greatest", async () => {
  const most = Number.MAX_SAFE_INTEGER;
  const options = { args: ["racy"], agents: 3, buffers: [4], first: most - 1, last: most, everywhere: true };
  assert.equal((await outcomesOf("cases", options)).outcomes.length, 2);
});
