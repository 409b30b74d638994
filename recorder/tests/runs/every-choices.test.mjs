// `--all` of agents that choose: every choice is tried, so they make any number of rounds.

import assert from "node:assert/strict";
import { spawnSync } from "node:child_process";
import { readFileSync } from "node:fs";
import { join } from "node:path";
import { describe, test } from "node:test";
import { fileURLToPath, pathToFileURL } from "node:url";
import { compared } from "../../bench/merging.mjs";
import { Agreement } from "../../lib/every/agreement.mjs";
import { dataOf } from "../../lib/every/data.mjs";
import { Every } from "../../lib/every/every.mjs";
import { learnApart } from "../../lib/every/learning/apart.mjs";
import { programOf } from "../../lib/every/search/file.mjs";
import { searched } from "../../lib/every/search/searched-file.mjs";
import { everyOptions } from "../../lib/library/every-schedule.mjs";
import { NotAsLearned, everySchedule } from "../../recorder.mjs";
import { BODIES, moduleOf as nastyOf } from "../every/nasty.mjs";
import { commandHere } from "../helpers/command-here.mjs";
import { FEW_WORKERS, fileIn, moduleOf, refusedInALine, temporaryFolder } from "../helpers/common.mjs";
import { needing } from "../helpers/needs.mjs";

const withPython = needing("python3", spawnSync("python3", ["--version"]).status === 0);
const MODEL = fileURLToPath(new URL("../../../tests/search/result", import.meta.url));
const ANY_ROUNDS = new URL("../agents/any-rounds/", import.meta.url);

/** @param {string} body of each of two agents, which share two words @param {string} [more] lines behind the agent */
const choosing = (body, more = "") => `export const setup = { agents: 2, buffers: [8], names: { FLAG: 0 } };
export default function agent({ buffers, agent: self, again, choose }) {
  const words = new Int32Array(buffers[0]);
  ${body}
}
${more}`;

/** Learns a module in a thread of its own, and makes no runs of it. @param {string} url @param {object} [more] */
const learned = (url, more = {}) => learnApart({
  module: url, args: [], place: {}, timeouts: "early", limit: 100_000, within: 60, ...more,
}, { seconds: 20 });

/** @param {import("node:test").TestContext} context @param {string} text */
const urlOf = (context, text) => pathToFileURL(moduleOf(context, text)).href;

/** @param {any[]} found @returns {string[]} their kinds, with why they aren't shown, if they aren't */
const kindsOf = (found) => found.map(({ kind, notShown }) => (notShown === null ? kind : `${kind}: ${notShown}`));

// Of each the states and acts that the model of tests/search finds, with 2, 3 and 4 agents, and whether some deadlock.
for (const [name, deadlocks, wanted] of /** @type {const} */ ([
  ["mutex", false, [[78, 152], [380, 1_082], [1_348, 5_028]]],
  ["naive-mutex", true, [[54, 98], [176, 464], [446, 1_544]]],
  ["semaphore", false, [[44, 88], [252, 746], [999, 3_846]]],
  ["condition", false, [[154, 290], [2_354, 6_444], [25_749, 92_386]]],
  ["readers-writer", false, [[129, 270], [1_477, 4_534], [10_542, 42_428]]],
])) {
  test(`any number of rounds of 2, 3 and 4 agents: ${name}`, withPython, async (context) => {
    const { href } = new URL(`${name}.mjs`, ANY_ROUNDS);
    for (const agents of [2, 3, 4]) {
      const { file, findings, hidden, isClosed, result } = await learned(href, { place: { agents } });
      assert.deepEqual([isClosed, hidden], [true, []]);
      assert.deepEqual([result.states, result.acts], wanted[agents - 2]);
      assert.deepEqual([...new Set(findings.map(({ kind }) => kind))], deadlocks ? ["deadlock"] : []);
      assert.deepEqual(searched(file, { timeouts: "early", limit: 100_000 }), result);
      if (agents === 4) continue;
      const path = fileIn(temporaryFolder(context), "automata.json", JSON.stringify(file));
      const { stdout, stderr } = spawnSync("python3", [MODEL, "--limit", "100000", path], { encoding: "utf8" });
      assert.equal(stderr, "");
      const { status: _status, ...model } = JSON.parse(stdout);
      assert.deepEqual(JSON.parse(JSON.stringify(result)), model);
    }
  });
}

test("a lost wake-up is found when the others have chosen to end, and is kept with its choices", async (context) => {
  const out = temporaryFolder(context);
  const module = fileURLToPath(new URL("naive-mutex.mjs", ANY_ROUNDS));
  const done = await commandHere([module, "--all", "--seeds", "1..30", "--rounds", "3", "--out", out]);
  assert.deepEqual([done.status, done.stderr], [1, ""]);
  assert.match(done.stdout, /^every schedule of 2 agents was tried: agents can deadlock\n {2}deadlock, in 2 states; /);
  assert.match(done.stdout, /; 30 real runs agree\n/);
  assert.match(done.stdout, /\nall choices were tried; other numbers of agents or arguments weren't\n/);
  const { agents } = JSON.parse(readFileSync(join(out, "all-1.choices.json"), "utf8"));
  assert.deepEqual(agents.map((/** @type {unknown[]} */ made) => made.length).sort(), [1, 2]);
  const explained = readFileSync(join(out, "all-1.explained"), "utf8");
  assert.equal(explained.match(/^agent \d chose .*, at naive-mutex\.mjs:7:10$/gm)?.length, 3);
  const page = readFileSync(join(out, "all-1.html"), "utf8");
  assert.match(page, /chose not to go on/);
  const replayed = await commandHere([module, "--replay", join(out, "all-1.json")]);
  assert.deepEqual([replayed.status, replayed.stderr], [1, ""]);
  assert.match(replayed.stdout, /1 of 1 run failed: 1 deadlock/);
});

test("what is thrown by chance of a choice, and behind others, is shown", async (context) => {
  const zero = "if (choose(3) === 2) throw new Error(\"two\");\n  Atomics.load(words, 0);";
  const one = await everySchedule({ ...FEW_WORKERS, module: moduleOf(context, choosing(zero)), seeds: 2 });
  assert.deepEqual([one.closed, kindsOf(one.found), one.choices], [true, ["threw"], 2]);
  // Agent 0 may be at its choice when agent 1 throws: in the real run it has chosen before.
  const other = `if (self === 1) {
    if (Atomics.load(words, 0) === 1) throw new Error("seen");
    return;
  }
  Atomics.store(words, 0, 1);
  for (;;) {
    const number = choose(4);
    if (number === 1) throw new Error("one");
    if (number === 3) break;
  }
  Atomics.load(words, 0);`;
  const both = await everySchedule({ ...FEW_WORKERS, module: moduleOf(context, choosing(other)), seeds: 20 });
  assert.deepEqual(kindsOf(both.found), ["threw", "threw"]);
  assert.deepEqual(both.found.map(({ text }) => text).sort(), ["Error: one", "Error: seen"]);
  const always = other.replace("if (number === 3) break;", "throw new Error(\"none\");");
  const lost = await everySchedule({ ...FEW_WORKERS, module: moduleOf(context, choosing(always)), seeds: 2 });
  assert.deepEqual(lost.found.map(({ text, notShown }) => [text, notShown]).sort(), [
    ["Error: none", null], ["Error: one", null],
    ["Error: seen", "agent 0 throws or chooses for ever then, whatever it chooses"],
  ]);
});

test("numbers from which nobody can choose throw, and so do `init` and `check` that choose", async (context) => {
  for (const [given, said] of [["0", "0"], ["1_001", "1001"], ["1.5", "1.5"], ["\"2\"", "a value of type string"]]) {
    const module = moduleOf(context, choosing(`choose(${given});\n  Atomics.load(words, 0);`));
    const { found } = await everySchedule({ ...FEW_WORKERS, module, seeds: 1 });
    assert.deepEqual(found.map(({ kind, notShown, text }) => [kind, notShown, text]),
      [["threw", null, `RangeError: choose(n) takes a whole number from 1 to 1000, and was given ${said}`]]);
  }
  const most = moduleOf(context, choosing("Atomics.store(words, 0, choose(1_000));"));
  const { closed, finalCount } = await everySchedule({ ...FEW_WORKERS, module: most, agents: 1, seeds: 1 });
  assert.deepEqual([closed, finalCount], [true, 1_000]);
  const checks = "export const check = (buffers, { again = () => { throw new Error(\"no choice\"); } }) => again();\n";
  const module = moduleOf(context, choosing("while (again()) Atomics.load(words, 0);", checks));
  const { found } = await everySchedule({ ...FEW_WORKERS, module, seeds: 1 });
  assert.deepEqual(found.map(({ kind, text }) => [kind, text]), [["check", "threw Error: no choice"]]);
  const early = "export const init = () => globalThis.again?.();\n";
  const kept = choosing("globalThis.again = again;\n  Atomics.load(words, 0);", early);
  await assert.rejects(everySchedule({ ...FEW_WORKERS, module: moduleOf(context, kept), seeds: 1 }),
    refusedInALine(/changes `globalThis`, an object of the language or of node/));
});

test("what agents choose by can be named and handed on, and not changed", async (context) => {
  const given = "const run = { again, more: [choose] };\n  while (run.again()) Atomics.add(words, run.more[0](2), 1);";
  const bounded = given.replace("1);", "Atomics.load(words, 0) + Atomics.load(words, 1) < 2 ? 1 : 0);");
  const { findings, hidden, isClosed } = await learned(urlOf(context, choosing(bounded)));
  assert.deepEqual([isClosed, hidden, findings], [true, [], []]);
  await assert.rejects(learned(urlOf(context, choosing("again.count = 1;\n  Atomics.load(words, 0);"))),
    refusedInALine(/changes `again`, an object of the language or of node/));
});

describe("agreement", () => {
  const ROUNDS = choosing(`while (again()) if (choose(3) > 0) words[self] = 1 - words[self];
  Atomics.load(words, 0);`);

  test("a real run must choose as was learned, and go on as the automata do", async (context) => {
    const module = moduleOf(context, ROUNDS);
    const { file } = await learned(pathToFileURL(module).href);
    const every = new Every(everyOptions({ ...FEW_WORKERS, module, seeds: 8 }, () => undefined), {});
    await every.run();
    const needs = (/** @type {object} */ outcome) => new Agreement(programOf(file)).needs(/** @type {any} */ (outcome));
    const outcome = every.outcomes.find(({ choices: [made] = [[]] }) => made.length > 3);
    assert.ok(outcome !== undefined && needs(outcome));
    const { choices: [first, second] = [] } = outcome;
    const others = [
      [[first.with(0, ["choose", 3, 1]), second], /made choose\(3\), which returned 1, and choose\(2\) was learned/],
      [[[...first, ["again", true]], second], /agent 0 made \d+ choices, and by the automata it makes \d+/],
      [[first.slice(0, -1), second], /agent 0 is .*, and choose\(2\) was learned|call 0 of agent 0/],
    ];
    for (const [choices, message] of others) {
      assert.throws(() => needs({ ...outcome, choices }), { constructor: NotAsLearned, message });
    }
  });

  test("real runs choose as seeds do, at most as often as `rounds` says", async (context) => {
    const given = { ...FEW_WORKERS, module: moduleOf(context, ROUNDS), seeds: 12, rounds: 2 };
    const every = new Every(everyOptions(given, () => undefined), {});
    assert.equal(dataOf(await every.run()).realRuns, 12);
    const rounds = every.outcomes.flatMap(({ choices = [] }) => choices.map((made) =>
      made.filter(([does, goesOn]) => does === "again" && goesOn === true).length));
    assert.deepEqual([...new Set(rounds)].sort(), [0, 1, 2]);
  });

  test("agents that choose for ever, and never end, are cut", async (context) => {
    const module = moduleOf(context, choosing("Atomics.load(words, 0);\n  for (;;) choose(2);"));
    const options = everyOptions({ ...FEW_WORKERS, module, seeds: 2 }, () => undefined);
    const every = new Every(options, {});
    const { found, neverEnds } = dataOf(await every.run());
    assert.deepEqual([found, neverEnds], [[], true]);
    assert.deepEqual(every.outcomes.map(({ ending, detail }) => [ending, /has made 4000 choices/.test(detail)]),
      [["cut", true], ["cut", true]]);
  });
});

describe("never merged wrongly", () => {
  /** @param {string} body in which `ld` chooses in place of a load */
  const nastyChoosing = (body) => nastyOf(body)
    .replace("const ld = (i) => Atomics.load(words, i);", "let choose;\nconst ld = () => choose(3);")
    .replace("{ buffers, agent: self }) {", "{ buffers, agent: self, choose: given }) {\n  choose = given;");

  // What the engine calls in place of the agents' own code.
  const BY_ENGINE = {
    "a conversion": "const o = { valueOf: again };\n  Atomics.store(words, 0, +o + 2 * +o + 4 * (o + 0));",
    "a getter": `const o = {};
    Object.defineProperty(o, "x", { get: again });
    const a = o.x;
    Atomics.store(words, 0, a + 2 * o.x);`,
    "a callback": "Atomics.store(words, 0, [2, 3].map(choose).reduce((sum, one) => 3 * sum + one, 0));",
    "a bound function": "const f = choose.bind(null, 3);\n  const a = f();\n  Atomics.store(words, 0, 3 * a + f());",
    "apply": "const a = Reflect.apply(choose, null, [3]);\n  Atomics.store(words, 0, 3 * a + choose.call(null, 2));",
  };

  test("moments at choices", async (context) => {
    const folder = temporaryFolder(context);
    const written = (/** @type {string} */ text, /** @type {number} */ at) =>
      pathToFileURL(fileIn(folder, `chosen-${at}.mjs`, text)).href;
    const names = Object.keys(BODIES).filter((_, at) => at % 12 === 0);
    const bodies = names.map((name) => nastyChoosing(BODIES[name]));
    const others = Object.values(BY_ENGINE).map((body) => choosing(`if (self === 0) { ${body} }`));
    const all = [...names, ...Object.keys(BY_ENGINE)];
    const results = await compared({ urls: [...bodies, ...others].map(written), limit: 100_000 });
    assert.equal(results.length, all.length);
    for (const [at, { problem, merged, unmerged }] of results.entries()) {
      assert.equal(problem, undefined, all[at]);
      assert.ok(unmerged.finals.length + unmerged.failed.length > 1, all[at]);
      assert.deepEqual([merged.finals, merged.failed], [unmerged.finals, unmerged.failed], all[at]);
    }
  });
});
