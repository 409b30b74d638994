// The proved search of the automata of `--all`: what it writes is read back as it is, and must be what the search in
// JavaScript has found.

import assert from "node:assert/strict";
import { readFileSync, readdirSync } from "node:fs";
import { test } from "node:test";
import { fileURLToPath } from "node:url";
import { NotSearched, provedSearch } from "../../lib/every/proved.mjs";
import { comparedBySecond, needFound } from "../../lib/every/second-search.mjs";
import { firstNotShown } from "../../lib/every/showing.mjs";
import { BadLines, resultIn, statusOf } from "../../lib/every/search/lines.mjs";
import { searched } from "../../lib/every/search/searched-file.mjs";
import { ModuleSimulator } from "../../lib/simulator/module.mjs";
import { Simulator } from "../../wasm/simulator.mjs";
import { NoSabsim, NotAsLearned, everySchedule } from "../../recorder.mjs";
import { fileIn, temporaryFolder } from "../helpers/common.mjs";
import { linesOf } from "../helpers/search-lines.mjs";

const HERE = new URL("../", import.meta.url);
const EXAMPLES = new URL("../../tests/search/examples/", HERE);
const NAMES = readdirSync(EXAMPLES).filter((name) => !name.endsWith(".result.json")).map((name) => name.slice(0, -5));
const PROGRAM = fileURLToPath(new URL("helpers/searching-program.mjs", HERE));
const LOCK = fileURLToPath(new URL("../examples/mutex-three-state.agents.mjs", HERE));

/** @param {string} name of an example @returns {any} */
const read = (name) => JSON.parse(readFileSync(new URL(`${name}.json`, EXAMPLES), "utf8"));

/** @param {string} name of an example @returns {any[]} the model's results */
const resultsOf = (name) => [read(`${name}.result`)].flat();

/** @param {string} name @returns {{ data: any, result: any }} an example, and what was found of it */
function foundIn(name) {
  const data = read(name);
  return { data, result: searched(data, { timeouts: "early", limit: 100_000 }) };
}

for (const name of NAMES) {
  test(`the lines of ${name} are read back`, () => {
    for (const { status, ...result } of resultsOf(name)) {
      assert.deepEqual(resultIn(linesOf(result)), result);
      assert.equal(statusOf(result), status);
    }
  });
}

test("the first line says if memory has ended the search", () => {
  const lines = linesOf({ ...foundIn("torn-read").result, closed: false, expanded: 1, depth: 0 });
  const cut = lines.replace('"states":', '"why":"memory","states":');
  assert.deepEqual(resultIn(cut), { ...resultIn(lines), why: "memory" });
});

test("lines that aren't whole, or that no search writes, are refused", () => {
  const lines = linesOf(foundIn("torn-read").result);
  const [first, ...others] = lines.slice(0, -1).split("\n");
  const texts = {
    "no line": "", "the last line without its end": lines.slice(0, -1), "half a line": lines.slice(0, -9),
    "a line less": `${[first, ...others.slice(0, -1)].join("\n")}\n`,
    "a line twice": `${[first, ...others, others.at(-1)].join("\n")}\n`,
    "another order": `${[first, ...[...others].reverse()].join("\n")}\n`,
    "another kind": lines.replace('"kind":"final"', '"kind":"finals"'),
    "another member": lines.replace('"acts":', '"act":'),
    "no JSON": `${lines}nothing\n`,
    "the first line alone": `${first}\n`,
    "another reason": lines.replace('"states":', '"why":"time","states":'),
  };
  for (const [what, text] of Object.entries(texts)) assert.throws(() => resultIn(text), BadLines, what);
});

/** @param {any[]} all @param {object} more @returns {any[]} */
const allWith = (all, more) => all.map((one) => ({ ...one, ...more }));

test("a second search that finds something else is noticed", async () => {
  const { data, result } = foundIn("late-notify");
  const as = (/** @type {any} */ other) => ({ search: async () => structuredClone(other) });
  assert.deepEqual((await comparedBySecond(data, result, as(result))).result, result);
  const unknown = [{ automaton: 0, node: 1, answer: "5", states: 1, schedule: [] }];
  const changes = {
    states: { states: result.states + 1 }, acts: { acts: result.acts + 1 }, closed: { closed: false },
    failed: { failed: [] }, "another text": { failed: allWith(result.failed, { text: "x" }) },
    deadlock: { deadlock: { states: 1, schedule: [] } }, "no way out": { no_way_out: { states: 1, schedule: [] } },
    conflicts: { conflicts: { count: 1, listed: [{ pair: [[0, 1], [1, 1]], states: 1, schedule: [] }] } },
    finals: { final: { ...result.final, count: 7 } }, "final states": { final: { ...result.final, states: 0 } },
    bytes: { final: { ...result.final, listed: allWith(result.final.listed, { blocks: ["00"] }) } },
    unknown: { unknown }, limit: { limit: 7 },
  };
  for (const [what, change] of Object.entries(changes)) {
    await assert.rejects(comparedBySecond(data, result, as({ ...result, ...change })), NotAsLearned, what);
  }
  // An edge that isn't known is never passed, even if both searches come to it.
  await assert.rejects(comparedBySecond(data, { ...result, unknown }, as({ ...result, unknown })), /wasn't learned/);
});

test("what the summary says must be what the proved search has found", () => {
  const { result } = foundIn("late-notify");
  const finding = { kind: "threw", text: "", row: [], changes: 0, acts: 0, isEarly: false, goesOn: false };
  const states = result.failed.reduce((/** @type {number} */ sum, /** @type {any} */ one) => sum + one.states, 0);
  needFound([/** @type {any} */ ({ ...finding, states })], result);
  const race = { ...finding, states: 1, kind: "race" };
  for (const findings of [[], [{ ...finding, states: 1 }], [{ ...finding, states }, race]]) {
    assert.throws(() => needFound(/** @type {any} */ (findings), result), NotAsLearned);
  }
});

test("if no race is shown by its run, all that isn't shown is an error", () => {
  const shownAs = (/** @type {string} */ kind, /** @type {boolean} */ isSame) =>
    /** @type {any} */ ({ finding: { kind }, outcome: { ending: "finished", detail: "" }, isSame });
  const [race, lostRace] = [shownAs("race", true), shownAs("race", false)];
  const [deadlock, lostDeadlock] = [shownAs("deadlock", true), shownAs("deadlock", false)];
  for (const found of [[], [deadlock, race], [race, lostDeadlock], [race, lostRace]]) {
    assert.equal(firstNotShown(found), undefined);
  }
  assert.equal(firstNotShown([deadlock, lostDeadlock]), lostDeadlock);
  assert.equal(firstNotShown([lostRace, deadlock]), lostRace);
});

test("the native program that is chosen searches, and its answer is reported", async () => {
  const options = { module: LOCK, args: ["1"], seeds: 2, sabsim: PROGRAM };
  const data = await everySchedule(options);
  assert.deepEqual([data.closed, data.searchProved, data.notProved], [true, true, null]);
  for (const [name, value] of /** @type {[string, string][]} */ ([["ADDS", "1"], ["ENDS", "6"], ["ENDS", "1"]])) {
    process.env[name] = value;
    await assert.rejects(everySchedule(options), NotAsLearned);
    delete process.env[name];
  }
  process.env.ENDS = "4";
  const { notProved, searchProved } = await everySchedule(options);
  delete process.env.ENDS;
  assert.deepEqual([searchProved, notProved], [false, "there is no memory for it"]);
});

test("a native program that is older than the recorder can't search, and that is an error", async (context) => {
  context.after(() => void delete process.env.ENDS);
  process.env.ENDS = "2";
  const options = { module: LOCK, args: ["1"], seeds: 2, sabsim: PROGRAM };
  const older = /search, so it is older/;
  const isWanted = (/** @type {unknown} */ error) => error instanceof NoSabsim && older.test(error.message);
  await assert.rejects(everySchedule(options), isWanted);
});

test("automata that no file can have aren't searched again, and it is said", async () => {
  const { data } = foundIn("semaphore");
  const bounds = { timeouts: /** @type {const} */ ("early"), limit: 1_000, size: 1_000, program: PROGRAM };
  const large = { ...data, automata: [{ name: "x".repeat(16_777_216), nodes: [{ finished: true }] }] };
  const many = { ...data, automata: [{ name: "a", nodes: Array(262_145).fill({ finished: true }) }] };
  const wide = { ...data, automata: [{ name: "a", nodes: [{ edges: Array(65_537).fill(["0", 0]) }] }] };
  const strange = { ...data, automata: [{ name: "a", nodes: [{ threw: "\ud800" }] }] };
  for (const [given, wanted] of /** @type {[any, RegExp][]} */ ([
    [large, /too large for it: 1\d{7} bytes/], [many, /262145 nodes/], [wide, /65537 edges/],
    [{ ...data, views: Array(65).fill(data.views[0]) }, /65 arrays/], [strange, /no text in UTF-8/],
  ])) {
    const isWanted = (/** @type {unknown} */ error) => error instanceof NotSearched && wanted.test(error.message);
    await assert.rejects(provedSearch(given, bounds), isWanted);
  }
});

test("the module searches as the model does", () => {
  const simulator = new ModuleSimulator();
  for (const name of NAMES) {
    for (const { status, ...result } of resultsOf(name)) {
      const { timeouts, limit } = result;
      const ended = simulator.search({ timeouts, limit, format: "json" }, JSON.stringify(read(name)), 2 ** 22);
      assert.deepEqual([ended.status, ended.leftOut, ended.complaint], [status, 0, ""], name);
      assert.deepEqual(resultIn(ended.output), result, name);
    }
  }
});

test("what has no room in the module is left out at the end of a line, and that is an error", () => {
  const text = JSON.stringify(read("mutex-of-3-agents-and-3-rounds"));
  const job = /** @type {const} */ ({ timeouts: "early", limit: 100_000, format: "json", states: true });
  const module = new WebAssembly.Module(readFileSync(new URL("../wasm/sabsim.wasm", HERE)));
  // The room has never fewer than 262,144 bytes.
  const { leftOut, output } = new Simulator(module).search(job, new TextEncoder().encode(text), 1);
  assert.ok(leftOut > 0);
  assert.equal(output.at(-1), 10);
});

test("a file that --out has kept is searched by the program, and by the module", async (context) => {
  const out = temporaryFolder(context);
  const { data, result } = foundIn("mutex-of-2-agents");
  const file = fileIn(out, "all.automata.json", `${JSON.stringify(data)}\n`);
  const module = new WebAssembly.Module(readFileSync(new URL("../wasm/sabsim.wasm", HERE)));
  const words = ["search", "--limit", "100000", "--format", "json", file];
  const ended = new Simulator(module).command(words, (name) => readFileSync(/** @type {string} */ (name)));
  assert.deepEqual(resultIn(new TextDecoder().decode(ended.output)), result);
});
