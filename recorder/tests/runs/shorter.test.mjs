// The shortest run that fails in the same way: programs whose shortest is known by reasoning, what stays as it was
// found, and what the command line and the library make of it. `rows.test.mjs` shortens programs that people know.

import assert from "node:assert/strict";
import { readFileSync, readdirSync } from "node:fs";
import { join } from "node:path";
import { after, test } from "node:test";
import { Progress } from "../../lib/command/progress.mjs";
import { shortenedLines, shorteningOf } from "../../lib/command/shortened.mjs";
import { failsAlike } from "../../lib/shorter/alike.mjs";
import { groupedByAgent } from "../../lib/shorter/grouped-by-agent.mjs";
import { keptScript } from "../../lib/shorter/kept-script.mjs";
import { shorten } from "../../lib/shorter/shorten.mjs";
import {
  changesOf, joinedFrom, rowOf, shortenedAt, stretchesOf, stretchesWithout,
} from "../../lib/shorter/stretches.mjs";
import { record } from "../../recorder.mjs";
import { commandHere } from "../helpers/command-here.mjs";
import { agentsIn, agentsPath, commandThere, temporaryFolder } from "../helpers/common.mjs";
import { firstFailing, groupOf } from "../helpers/groups.mjs";
import { CHECKER, CHECKING } from "../helpers/needs.mjs";
import { simulated } from "../helpers/simulate.mjs";

const MODULE = agentsPath("shortest");

/** The rows that stretches spell, as digits. */
const digitsOf = (rows) => rows.map((stretches) => rowOf(stretches).join(""));

test("rows are stretches of agents, which are left out, joined and made shorter", () => {
  const row = [0, 0, 1, 2, 2, 2, 0];
  const stretches = stretchesOf(row);
  assert.deepEqual(stretches.map(({ agent, draws }) => [agent, draws]), [[0, 2], [1, 1], [2, 3], [0, 1]]);
  assert.deepEqual([rowOf(stretches), changesOf(row), changesOf([])], [row, 3, 0]);
  assert.deepEqual(digitsOf([stretchesWithout(stretches, 1, 2)]), ["000"]);
  assert.deepEqual(digitsOf(joinedFrom(stretches, 0)), ["0001222", "1222000", "001222", "122200", "01222", "12220"]);
  assert.deepEqual(joinedFrom(stretches, 1), []);
  assert.deepEqual(digitsOf(shortenedAt(stretches, 2)), ["00120", "001220"]);
  // What agent 1 does comes at once behind a stretch of agent 0 that is shorter.
  assert.deepEqual(digitsOf(shortenedAt(stretchesOf([0, 0, 1, 0, 1]), 0)), ["0101", "0110"]);
});

/** A script of two agents. @param {unknown[][][]} calls of each @param {unknown[]} schedule */
function scriptOf(calls, schedule) {
  const view = (name) => ({ name, kind: "Int32", block: 0, offset: 0, length: 8 });
  const agents = calls.map((each) => ({ block: true, calls: each }));
  const views = [view("Int32"), view("ordinary_Int32")];
  return keptScript(JSON.stringify({ blocks: [32], views, agents, schedule }), "it");
}

test("draws that touch nothing in common change places, so that an agent goes on as long as it can", () => {
  const add = (index) => ["add", "Int32", index, 1];
  const load = ["load", "Int32", 2];
  // Agent 1's load comes behind agent 0's store.
  const own = scriptOf([[add(0), add(0), ["store", "Int32", 2, 5]], [add(1), add(1), load]],
    [0, 0, 0, 1, 1, 1, 0, 0, 0, 1, 1, 1, 0, 0, 0, 1, 1, 1]);
  assert.deepEqual([groupedByAgent(own, 0).join(""), groupedByAgent(own, 1).join("")], ["000111", "110001"]);
  // Loads change places, and an add stays behind the loads before it.
  const loads = scriptOf([[load, add(2)], [load, load]], [1, 1, 1, 0, 0, 0, 1, 1, 1, 0, 0, 0]);
  assert.deepEqual([groupedByAgent(loads, 0).join(""), groupedByAgent(loads, 1).join("")], ["0110", "1100"]);
  // A wait, the notify that wakes it and its end stay as they were.
  const waits = scriptOf([[["wait", "Int32", 0, 0], add(3)], [["notify", "Int32", 0], add(1)]],
    [0, 0, 1, 1, 1, 0, 0, 1, 1, 1, 0, 0, 0]);
  assert.deepEqual([groupedByAgent(waits, 0).join(""), groupedByAgent(waits, 1).join("")], ["01100", "01100"]);
  // What agent 0 writes behind its first call comes before agent 1's load.
  const writes = scriptOf([[add(0), ["store", "ordinary_Int32", 2, 7], add(0)], [add(1), load]],
    [0, 0, 0, 0, 0, 0, 1, 1, 1, 1, 1, 1, 0, 0, 0]);
  assert.deepEqual([groupedByAgent(writes, 0).join(""), groupedByAgent(writes, 1).join("")], ["0011", "1001"]);
});

/** @type {(() => Promise<void>)[]} what is done after all tests */
const ends = [];
after(() => Promise.all(ends.map((end) => end())));

/** @type {Map<string, ReturnType<typeof groupFailing>>} */
const groups = new Map();

/** A group of a program, and its first failing run. Tests of the same program have the same one. */
function groupAndFirst(name, agents) {
  const key = `${name} ${agents}`;
  if (!groups.has(key)) groups.set(key, groupFailing(name, agents));
  return groups.get(key);
}

async function groupFailing(name, agents) {
  const group = await groupOf({ after: (end) => ends.push(end) }, MODULE, { args: [name], agents });
  return { group, first: await firstFailing(group) };
}

/** The shortest failing run of a program whose shortest is known. */
async function shortestOf(name, agents) {
  const { group, first } = await groupAndFirst(name, agents);
  const { shortest, shortened } = await shorten(group, first, { milliseconds: 60_000 });
  // Where the seed makes the shortest at once, that one stays.
  const { outcome } = shortest ?? await group.one({ seed: first.seed, whole: true, wantsRow: true });
  assert.deepEqual(shortened.changes.after, changesOf(outcome.row));
  return { outcome, shortened };
}

test("a lost wake-up: one looks, the other does all that it does, and the first one waits", async () => {
  const { outcome } = await shortestOf("bell", 2);
  // Agent 0 counts four times for itself and loads; agent 1 counts four times, stores and notifies; agent 0 waits.
  assert.deepEqual([outcome.ending, outcome.row.join("")], ["deadlock", "000001111110"]);
  assert.equal(outcome.calls, 12);
});

test("a lost update: one loads, the other counts, and the first one stores", async () => {
  const { outcome } = await shortestOf("count", 2);
  assert.deepEqual([outcome.ending, changesOf(outcome.row), outcome.calls], ["check", 2, 8]);
});

test("an agent that has no part in the failure moves first, or never if the run ends before", async () => {
  const { outcome: counts } = await shortestOf("count", 3);
  assert.deepEqual([counts.ending, changesOf(counts.row), counts.calls], ["check", 3, 14]);
  const { outcome: throws } = await shortestOf("assertion", 3);
  assert.deepEqual([throws.ending, throws.row], ["failed", [0, 0, 0, 1, 0]]);
  assert.deepEqual(throws.progress.map(({ calls }) => calls), [4, 1, 0]);
});

test("two locks in two orders: one takes its first, the other its own, and both wait", async () => {
  const { outcome } = await shortestOf("locks", 2);
  assert.ok(["000011111100", "111100000011"].includes(outcome.row.join("")), outcome.row.join(""));
  assert.equal(outcome.ending, "deadlock");
});

test("runs fail in the same way: by their ending, who waits where, the first pair of lines, or the message", () => {
  const run = (ending, detail, races = [], waiting = []) =>
    ({ outcome: { ending, detail, races }, aside: { waiting } });
  const thrown = (number, line) => run("failed", `agent ${number} threw Error: ${number}\n    at f (a.mjs:${line})`);
  assert.ok(failsAlike(thrown(1, 20), thrown(2, 20)));
  assert.ok(!failsAlike(thrown(1, 20), thrown(1, 21)));
  assert.ok(!failsAlike(run("check", "check threw Error: one"), run("check", "check threw Error: two")));
  assert.ok(!failsAlike(run("check", ""), run("failed", "")));
  const waits = (...places) => run("deadlock", "", [], places.map(([agent, byte]) => ({ agent, block: 0, byte })));
  assert.ok(failsAlike(waits([0, 4], [1, 8]), waits([1, 8], [0, 4])));
  assert.ok(!failsAlike(waits([0, 4]), waits([1, 4])));
  assert.ok(!failsAlike(waits([0, 4]), waits([0, 4], [1, 4])));
  const races = (...pairs) => run("race", "", pairs.map((lines) => ({ lines })));
  assert.ok(failsAlike(races(["a", "b"], ["c", "d"]), races(["c", "d"])));
  assert.ok(!failsAlike(races(["c", "d"]), races(["a", "b"], ["c", "d"])));
  const diverged = { ...waits([0, 4]), aside: { waiting: [], divergence: { reason: "waits", agent: 0, draw: 3 } } };
  assert.ok(!failsAlike(diverged, waits([0, 4])));
});

test("shortening ends after so many runs, or so much time, and says so", async () => {
  const { group, first } = await groupAndFirst("count", 2);
  const few = await shorten(group, first, { most: 2 });
  assert.deepEqual([few.shortest, few.shortened.runs, few.shortened.stopped], [undefined, 1, "the most that are made"]);
  const late = await shorten(group, first, { milliseconds: 0 });
  assert.equal(late.shortened.stopped, "stopped after 0 s, so a faster machine may find a shorter one");
  const tries = [];
  // By the time the shortest run is made, workers for it have begun.
  const begun = [];
  const { one } = group;
  group.one = (wanted) => {
    if (wanted.isFresh) begun.push(group.begun.length);
    return one.call(group, wanted);
  };
  const limits = { milliseconds: 60_000, isFresh: true, onTry: (tried) => tries.push(tried) };
  const { shortened } = await shorten(group, first, limits);
  assert.deepEqual(begun.slice(-1), [group.agents.length]);
  assert.deepEqual(tries.map(({ runs }) => runs), Array.from({ length: tries.length }, (_, at) => at + 3));
  assert.equal(tries.at(-1).changes, shortened.changes.after);
});

test("the shortest run is made again once, or up to three times if it gets real answers", async () => {
  const { group, first } = await groupFailing("count", 2);
  const { one } = group;
  for (const [real, astray, isFound] of [[["fs.watch at a.mjs:1:1"], 2, true], [["fs.watch at a.mjs:1:1"], 3, false],
    [undefined, 0, true], [undefined, 1, false]]) {
    let left = astray;
    group.one = async (wanted) => {
      const run = await one.call(group, wanted);
      run.outcome.real = real;
      if (wanted.needsTrace) left -= 1;
      if (wanted.needsTrace && left >= 0) run.outcome.calls += 1;
      return run;
    };
    const { shortest, shortened } = await shorten(group, { ...first, real }, { milliseconds: 60_000 });
    assert.deepEqual([shortest !== undefined, shortened.unchanged === undefined], [isFound, isFound], `${astray}`);
  }
});

test("a run that met a limit, or whose worker died, isn't shortened", async (context) => {
  const limited = await shorten(undefined, { seed: 1, ending: "limit", detail: "agent 0 spins", calls: 1_000 });
  assert.deepEqual([limited.shortest, limited.shortened.runs, limited.shortened.unchanged],
    [undefined, 0, "it met a limit"]);
  const group = await groupOf(context, MODULE, { args: ["dies"] });
  const { shortest, shortened } = await shorten(group, await firstFailing(group));
  assert.deepEqual([shortest, shortened.unchanged], [undefined, "an agent's worker died"]);
});

test("a run that can't be made again stays as it was found", async (context) => {
  const folder = temporaryFolder(context);
  const module = agentsIn(folder, [
    "globalThis.runs = (globalThis.runs ?? 0) + 1;",
    "Atomics.add(new Int32Array(buffers[0]), 0, 1);",
    "if (globalThis.runs === 3) throw new Error(`run ${globalThis.runs}`);",
  ].join("\n"));
  const out = join(folder, "out");
  const agents = ["--agents", "2", "--everywhere", "--buffers", "4"];
  const words = [module, ...agents, "--seeds", "1..5", "--check", "0", "--out", out];
  const { status, stdout } = await commandHere(words);
  assert.equal(status, 1, stdout);
  const why = "it couldn't be made again in the same way: its agents do something else when they run once more";
  assert.ok(stdout.includes(`\nnot shortened: ${why}, in 1 run\n`), stdout);
  // Nor can it be made again for its trace.
  assert.ok(stdout.includes("\nnot kept: seed-3.trace.jsonl: the run went another way when it was made once more "));
  const endings = ["explained", "html", "json", "report", "svg"];
  assert.deepEqual(readdirSync(out).sort(), endings.map((ending) => `seed-3.${ending}`));
});

/** Runs the command line on the program `bell` with an own folder, and returns what it kept there. */
async function keptBy(context, run, ...words) {
  const out = temporaryFolder(context);
  const small = ["--agents", "2", "--everywhere"];
  const all = [MODULE, ...small, "--seeds", "1..80", ...CHECKING, "--out", out, ...words, "--", "bell"];
  const { status, stdout, stderr } = await run(all);
  assert.deepEqual([status, stderr], [1, ""], stderr);
  const files = Object.fromEntries(readdirSync(out).map((name) => [name, readFileSync(join(out, name), "utf8")]));
  return { stdout, files };
}

test("the shortest run is kept with the original beside it, whatever the jobs; --no-shorten keeps one",
  async (context) => {
    const { stdout, files } = await keptBy(context, commandThere, "--jobs", "2");
    const [, seed] = /^first failing seed: (\d+), deadlock$/m.exec(stdout);
    const same = "12 calls to 12, in \\d+ runs; sabsim agrees with the recorder";
    assert.match(stdout, new RegExp(`^shortened: \\d+ changes of agents to 2, ${same}$`, "m"));
    const first = ["json", "report", "trace.jsonl"];
    const endings = [...first, ...first.map((ending) => `original.${ending}`), "explained", "svg", "html"];
    assert.deepEqual(Object.keys(files).sort(), endings.map((ending) => `seed-${seed}.${ending}`).sort());
    assert.ok(stdout.endsWith(`: ${endings.map((ending) => `seed-${seed}.${ending}`).join(", ")}\n`), stdout);
    const small = { agents: 2, everywhere: true };
    const options = { module: MODULE, args: ["bell"], ...small, seed: Number(seed), sabsim: CHECKER };
    const { original, ...shortest } = await record({ ...options, shorten: true });
    assert.equal(files[`seed-${seed}.json`], shortest.script);
    assert.equal(files[`seed-${seed}.report`], shortest.report);
    assert.equal(files[`seed-${seed}.original.json`], original.script);
    assert.deepEqual([shortest.checked, original.checked], [true, true]);
    assert.equal(shortest.shortened.calls.after, shortest.calls);
    assert.equal(simulated(["replay"], files[`seed-${seed}.json`]).output, files[`seed-${seed}.report`]);

    const unshortened = await keptBy(context, commandHere, "--no-shorten");
    assert.ok(!unshortened.stdout.includes("shortened"), unshortened.stdout);
    assert.equal(unshortened.files[`seed-${seed}.json`], original.script);
    assert.ok(Object.keys(unshortened.files).every((name) => !name.includes("original")));
  });

test("the summary's lines about a shortened run", () => {
  const changes = { before: 1_031, after: 4 };
  const calls = { before: 60, after: 22 };
  const about = { runs: 84, changes, calls };
  const failing = { detail: "as found" };
  const shortest = { detail: "one\ntwo", checked: true };
  /** @param {object} found */
  const linesOf = (found, onlyIf = null) => shortenedLines(shorteningOf(found, failing), onlyIf);
  const start = "shortened: 1,031 changes of agents to 4, 60 calls to 22, in";
  assert.deepEqual(linesOf({ shortest, shortened: about }),
    [`${start} 84 runs; sabsim agrees with the recorder`, "  one", "  two"]);
  const stopped = { ...about, runs: 400, stopped: "the most that are made" };
  assert.deepEqual(linesOf({ shortest: failing, shortened: stopped }),
    [`${start} 400 runs, the most that are made`]);
  assert.deepEqual(linesOf({ shortened: { ...about, runs: 0, unchanged: "it met a limit" } }),
    ["not shortened: it met a limit"]);
  const needs = (onlyIf) =>
    linesOf({ shortest: { ...failing, onlyIf }, shortened: about }, "only if 5 s pass").slice(1);
  assert.deepEqual([needs("only if 5 s pass"), needs("only if 1 ms passes"), needs(undefined)],
    [[], ["  only if 1 ms passes"], ["  no timed wait ends early in it"]]);
});

test("a terminal shows how far the shortening is", (context) => {
  const { stderr } = process;
  const written = [];
  context.mock.method(stderr, "write", (text) => written.push(text));
  const isTerminal = stderr.isTTY;
  context.after(() => {
    stderr.isTTY = isTerminal;
  });
  stderr.isTTY = true;
  const progress = new Progress(5);
  progress.shown = -Infinity;
  progress.showShortening(29, { runs: 84, changes: 4 });
  progress.showShortening(29, { runs: 85, changes: 4 });
  progress.clear();
  assert.deepEqual(written, ["\r\x1b[Kshortening the run of seed 29: 84 runs, 4 changes of agents so far", "\r\x1b[K"]);
});
