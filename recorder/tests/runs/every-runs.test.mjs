// Real runs beside a search of every schedule that fail in a way which the search hasn't found.

import assert from "node:assert/strict";
import { join } from "node:path";
import { test } from "node:test";
import { dataOf } from "../../lib/every/data.mjs";
import { Every } from "../../lib/every/every.mjs";
import { OnlyRuns } from "../../lib/every/only-runs.mjs";
import { everyText } from "../../lib/every/every-text.mjs";
import { everyOptions } from "../../lib/library/every-schedule.mjs";
import { simulatorAt } from "../../lib/simulator/chosen.mjs";
import { NotAsLearned, everySchedule, record } from "../../recorder.mjs";
import { assertAgents } from "../../testing.mjs";
import { commandHere } from "../helpers/command-here.mjs";
import { COUNTS, FEW_WORKERS, commandThere, fileIn, moduleOf, nodeThere, temporaryFolder } from "../helpers/common.mjs";

const LIBRARY = new URL("../../recorder.mjs", import.meta.url).href;

/** The exchange of one agent and the read of another are unordered, and no state has a conflict. */
const EXCHANGE = `export const setup = { agents: 2, buffers: [4] };
export default function agent({ buffers, agent: self }) {
  const words = new Int32Array(buffers[0]);
  if (self === 0) Atomics.compareExchange(words, 0, 0, 1);
  else {
    Atomics.store(words, 0, 2);
    words[0];
  }
}
`;

/** @param {string[]} words */
const command = (...words) => commandHere(words);

test("unordered accesses that no state shows are found by real runs, shown and kept", async (context) => {
  const module = moduleOf(context, EXCHANGE);
  const out = temporaryFolder(context);
  const done = await command(module, "--all", "--seeds", "1..6", "--out", out);
  assert.equal(done.status, 1, done.stderr);
  const [first, found, shown, states, learned] = done.stdout.split("\n");
  assert.equal(first, "every schedule of 2 agents was tried: agents can race");
  const how = /^ {2}race: agents\.mjs:4:\d+ and agents\.mjs:7:\d+, unordered but no data race, in \d of 6 real runs, /;
  assert.match(found, how);
  const [, firstSeed] = /, seed (\d) the first$/.exec(found) ?? [];
  assert.match(shown, /^ {4}agent 0's call 0, \["compareExchange", .*; agent 1 reads Int32\[0\] at /);
  assert.match(states, /^ {2}4 states, 4 acts; /);
  assert.match(learned, /; 6 real runs agree$/);
  assert.match(done.stdout, /\nkept in .*: all\.automata\.json, all-1\.json, all-1\.report, all-1\.trace\.jsonl, /);
  const replayed = await command(module, "--replay", join(out, "all-1.json"));
  assert.match(replayed.stdout, /1 of 1 run failed: 1 race/);
  const json = JSON.parse((await command(module, "--all", "--seeds", "1..6", "--format", "json")).stdout);
  const [{ kind, runs, seed, states: inStates }] = json.found;
  assert.deepEqual([kind, seed, inStates], ["race", Number(firstSeed), 0]);
  assert.ok(runs > 0 && runs <= 6);
});

test("if not every schedule was tried, they are in the summary of the seeds", async (context) => {
  const done = await command(moduleOf(context, EXCHANGE), "--all", "--states", "2", "--seeds", "1..6");
  assert.equal(done.status, 1, done.stderr);
  assert.match(done.stdout, /^not every schedule was tried: all of up to 0 acts were, 2 states; there are more\n/);
  assert.match(done.stdout, /\n\d of 6 runs failed: \d race/);
});

test("a data race of a real run contradicts a search without conflicts", async (context) => {
  const races = await record({ module: moduleOf(context, `export const setup = { agents: 2, buffers: [4] };
export default ({ buffers }) => void (new Int32Array(buffers[0])[0] += 1);
`), trace: true, seed: 1 });
  assert.equal(races.ending, "race");
  const message = /^the run of seed 1 has a data race, and .* none that does: agent/;
  assert.throws(() => new OnlyRuns([], simulatorAt()).take(races, true), { constructor: NotAsLearned, message });
  const unordered = await record({ module: moduleOf(context, EXCHANGE), trace: true, seed: 1 });
  assert.equal(unordered.ending, "race");
  const only = new OnlyRuns([], simulatorAt());
  for (const seed of [3, 2]) only.take({ ...unordered, seed, onlyIf: seed === 3 ? "500 ms pass" : undefined }, true);
  only.take(unordered, false);
  const found = [...only.found.values()];
  assert.deepEqual(found.map(({ text, runs, outcome: { seed } }) => [text.includes("no data race"), runs, seed]),
    [[true, 2, 2], [false, 1, 1]]);
});

test("runs that meet a limit, or in which nothing was tried, are listed", async (context) => {
  const words = [moduleOf(context, COUNTS), "--all", "--seeds", "1..3", "--max-moves", "2"];
  const met = await command(...words);
  assert.equal(met.status, 1, met.stderr);
  assert.match(met.stdout, /: agents can meet a limit\n {2}limit, in 3 of 3 real runs, seed 1 the first\n {4}more /);
  const allowed = await command(...words, "--limits", "allow");
  assert.equal(allowed.status, 0, allowed.stderr);
  const module = moduleOf(context, "export const setup = { agents: 2, buffers: [4] };\nexport default () => {};\n");
  const wanted = /: agents can fail in another way\n {2}failed, in 2 of 2 real runs, .*\n .*: nothing was tried\n/;
  await assert.rejects(assertAgents({ module, all: true, seeds: 2 }), wanted);
});

test("a `check` that keeps something from run to run is called in modules that are loaded anew", async (context) => {
  const module = moduleOf(context, `${COUNTS}let calls = 0;\nexport const check = () => (calls += 1) < 3;\n`);
  const { found, freshened } = await everySchedule({ ...FEW_WORKERS, module, seeds: 6 });
  assert.deepEqual({ found, freshened }, { found: [], freshened: true });
});

test("a single job makes the real runs in the process that calls the library", async (context) => {
  const file = fileIn(temporaryFolder(context), "here.mjs", `import childProcess from "node:child_process";
import { syncBuiltinESMExports } from "node:module";
childProcess.fork = () => { throw new Error("it starts a process"); };
syncBuiltinESMExports();
const { everySchedule } = await import("${LIBRARY}");
console.log((await everySchedule({ module: process.argv[2], seeds: 3 })).realRuns);
`);
  const { stdout, stderr } = await nodeThere([file, moduleOf(context, COUNTS)]);
  assert.deepEqual([stdout, stderr], ["3\n", ""]);
});

test("a run whose trace lacks accesses isn't compared, and the summary says so", async (context) => {
  const options = everyOptions({ module: moduleOf(context, EXCHANGE), seeds: 2 }, () => undefined);
  const data = dataOf(await new Every({ ...options, logEvents: 2 }, {}).run());
  assert.deepEqual([data.realRuns, data.notCompared], [0, 2]);
  assert.match(everyText(data), /; 0 real runs agree, and 2 couldn't be compared\n/);
  assert.deepEqual(data.found.map(({ kind, text }) => [kind, /no data race/.test(text)]), [["limit", false]]);
});

test("a race that no real run can show, since one agent reads on, is listed", async (context) => {
  const module = moduleOf(context, `export const setup = { agents: 2, buffers: [4] };
export default function agent({ buffers, agent: self }) {
  const words = new Int32Array(buffers[0]);
  if (self === 1) Atomics.store(words, 0, 1);
  else while (words[0] === 0);
}
`);
  const data = await everySchedule({ ...FEW_WORKERS, module, seeds: 1, seconds: 1 });
  const kinds = data.found.map(({ kind, detail, seed }) => [kind, detail === null, seed]);
  assert.deepEqual(kinds, [["race", true, null], ["limit", false, 1]]);
  const race = /: agents can race or meet a limit\n {2}race: .*, in \d states?; the first one after .*\n {4}not /;
  assert.match(everyText(data), race);
});

test("code that node loads first is refused, since nobody sees what it keeps", async (context) => {
  const first = fileIn(temporaryFolder(context), "first.cjs", "");
  const env = { ...process.env, NODE_OPTIONS: `--require ${first}` };
  const { status, stderr } = await commandThere([moduleOf(context, COUNTS), "--all"], { env });
  assert.equal(status, 2);
  assert.match(stderr, /^record: not every schedule can be tried if --require or --import of node loads code first: /);
});
