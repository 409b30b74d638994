// Agents whose code catches everything, also that their run is over: each such run ends, prints nothing more and keeps
// its trace.

import assert from "node:assert/strict";
import { existsSync, readFileSync, writeFileSync } from "node:fs";
import { join } from "node:path";
import { test } from "node:test";
import { commandHere } from "../helpers/command-here.mjs";
import { agentsIn, agentsPath, commandNow, temporaryFolder } from "../helpers/common.mjs";
import { CHECKING } from "../helpers/needs.mjs";

/** Runs the recorder in a process of its own. What its agents print comes from there. @param {string[]} words */
const command = (words) => commandNow(words, { timeout: 120_000 });

/** The words for agents that catch in a way, without pilots, which would take twice as many workers. */
const wordsOf = (seeds, ...others) =>
  [agentsPath("catches-all"), "--seeds", seeds, "--agents", "2", "--everywhere", ...CHECKING, ...others];

/** The first seed whose run fails. */
const FAILING = 14;

test("a loop that catches everything ends with its run, prints nothing of that, and its trace is kept", (context) => {
  const out = temporaryFolder(context);
  const { status, stdout, stderr } = command(wordsOf("1..30", "--out", out, "--", "loop"));
  assert.deepEqual([status, stderr], [1, ""], stderr.slice(0, 200));
  assert.match(stdout,
    new RegExp(`^first failing seed: ${FAILING}, threw\n  agent 0 threw Error: job 2 isn't done$`, "m"));
  assert.doesNotMatch(stdout, /^not kept: /m);
  // Each shorter run that is tried needs another worker. A slow machine ends that after ten seconds, and says so.
  const original = /^not shortened: .*, stopped after 10 s/m.test(stdout) ? [] : ["original.trace.jsonl"];
  for (const ending of ["trace.jsonl", ...original]) {
    const trace = readFileSync(join(out, `seed-${FAILING}.${ending}`), "utf8");
    assert.match(trace, /"source":"catches-all\.mjs:\d+:\d+"/);
  }
});

test("code that catches it and ends soon keeps its worker, and a loop gets another one", () => {
  const seeds = `${FAILING}..${FAILING + 1}`;
  // The failing run is made once more to learn its lines.
  for (const [how, served] of [["once", [1, 2, 3]], ["loop", [1, 1, 1]]]) {
    const { stderr } = command(wordsOf(seeds, "--", how, "prints"));
    assert.equal(stderr, served.map((run) => `serves run ${run} of its worker\n`).join(""), how);
  }
});

test("if an agent goes on without a call, the trace isn't kept, and the summary says why", async (context) => {
  const out = temporaryFolder(context);
  const { status, stdout } = await commandHere(wordsOf(`${FAILING}`, "--out", out, "--", "stay"));
  assert.equal(status, 1);
  const why = "agent 1 didn't come to an end after the run, "
    + "so the run wasn't made once more to learn its lines of code";
  const lines = stdout.split("\n").filter((line) => line.startsWith("not kept: "));
  assert.deepEqual(lines, [`not kept: seed-${FAILING}.trace.jsonl: ${why}`]);
  assert.ok(!existsSync(join(out, `seed-${FAILING}.trace.jsonl`)));
});

test("if the second run goes another way, the trace isn't kept, and the summary says why", async (context) => {
  const folder = temporaryFolder(context);
  const module = agentsIn(folder, `
    globalThis.times = (globalThis.times ?? 0) + 1;
    Atomics.store(new Int32Array(buffers[0]), 0, globalThis.times);
    throw new Error("always");`);
  const words = [module, "--agents", "1", "--buffers", "4", "--seeds", "1", "--no-shorten", "--check", "0"];
  const { stdout } = await commandHere([...words, "--out", join(folder, "out")]);
  assert.match(stdout, /^not kept: seed-1\.trace\.jsonl: the run went another way when it was made once more /m);
});

test("what `init` prints is printed, also after a run that was over for its agent", (context) => {
  const folder = temporaryFolder(context);
  const module = agentsIn(folder, "Atomics.wait(new Int32Array(buffers[0]), 0, 0);");
  writeFileSync(module, `${readFileSync(module, "utf8")}export function init() { console.error("filled"); }\n`);
  const words = [module, "--agents", "2", "--buffers", "4", "--seeds", "1..3", "--check", "0"];
  // The first run is made once more to learn its lines. What it prints at the end, when it is made again, is left out.
  assert.equal(command(words).stderr, "filled\n".repeat(4));
});
