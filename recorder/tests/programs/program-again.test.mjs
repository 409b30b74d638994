// The first failing run of a program is made once more in fresh threads. If it isn't the same there, it is no finding:
// the program keeps something in the globals of threads that are kept.

import assert from "node:assert/strict";
import { describe, it } from "node:test";
import { pathToFileURL } from "node:url";
import { Log, READ } from "../../lib/memory/log.mjs";
import { defaultsOf } from "../../lib/options/table.mjs";
import { firstDifferent } from "../../lib/run/differing-events.mjs";
import { KeepsGlobals } from "../../recorder.mjs";
import { commandThere } from "../helpers/common.mjs";
import { jobOutcomes } from "../helpers/job-runs.mjs";
import { seedsTo } from "../helpers/recorded.mjs";
import { programOf } from "../helpers/whole-programs.mjs";

/** Two threads share three words. What main keeps shows in one way of these, in runs of which some fail by the seed. */
const FILES = {
  "main.mjs": `import { Worker } from "node:worker_threads";
const words = new Int32Array(new SharedArrayBuffer(12));
const worker = new Worker(new URL("./worker.mjs", import.meta.url), { workerData: words, argv: process.argv.slice(2) });
await new Promise((done) => worker.on("exit", done));
globalThis.runs = (globalThis.runs ?? 0) + 1;
const [way] = process.argv.slice(2);
if (way === "bytes") Atomics.store(words, 1, globalThis.runs);
Atomics.load(words,
  way === "acts" && globalThis.runs > 1 ? 1 : 0);
const left = Atomics.load(words, 2);
const fails = { ending: globalThis.runs > 1, worker: left === 1 };
if (fails[way] ?? Math.random() >= 0.5) throw new Error("it fails");`,
  "worker.mjs": `import { workerData } from "node:worker_threads";
globalThis.runs = (globalThis.runs ?? 0) + 1;
if (process.argv[2] === "worker" && globalThis.runs > 1) Atomics.store(workerData, 2, 1);
Atomics.add(workerData, 0, 1);`,
};

const KEEPS = "the program keeps something in globals: try --fresh";

/** What the message says about each way. The first act that differs is in the line where the call begins. */
const SAID = {
  ending: "ended in another way (threw, then finished)", bytes: "left other bytes",
  acts: "did something else, first at main.mjs:8:9",
};

/**
 * The outcomes of the seeds from 1 on, as long as there are some, and what ended them.
 * @param {import("node:test").TestContext} context
 * @param {string} way
 * @param {object} [options]
 */
async function made(context, way, options = {}) {
  const outcomes = [];
  const module = pathToFileURL(programOf(context, FILES)).href;
  const asked = { ...defaultsOf("record"), program: true, seconds: 20, module, args: [way], ...options };
  const problem = await jobOutcomes(asked, seedsTo(8), outcomes).then(() => undefined, (error) => error);
  return { outcomes, problem };
}

describe("a failing run that goes another way in fresh threads", { concurrency: 4 }, () => {
  for (const [way, said] of Object.entries(SAID)) {
    it(`is no finding: ${way}`, async (context) => {
      const { outcomes, problem } = await made(context, way);
      const seed = outcomes.length + 1;
      assert.ok(problem instanceof KeepsGlobals && seed > 1, String(problem));
      assert.equal(problem.message, `seed ${seed} was run once more in fresh threads, and ${said}: ${KEEPS}`);
      assert.ok(outcomes.every(({ fails }) => !fails));
    });
  }

  it("ends the command line with status 3, and the summary has no failing run", async (context) => {
    const main = programOf(context, FILES);
    const { status, stdout, stderr } = await commandThere(["--program", main, "--seeds", "1..9", "--", "ending"]);
    assert.equal(status, 3, stderr);
    assert.ok(stderr.includes(`record: seed 2 was run once more in fresh threads, and ${SAID.ending}: ${KEEPS}`),
      stderr);
    assert.match(stdout, /^1 run: 1 finished$/m);
    assert.doesNotMatch(stdout, /first failing seed/);
  });

  it("isn't looked for if each run has fresh threads", async (context) => {
    const { outcomes, problem } = await made(context, "bytes", { fresh: true });
    assert.equal(problem, undefined);
    assert.ok(outcomes.some(({ fails }) => fails) && outcomes.length === 8);
  });
});

describe("a failing run of which another thread is to blame", () => {
  it("is no finding, though the thread that failed was replaced", async (context) => {
    const { outcomes, problem } = await made(context, "worker");
    assert.ok(problem instanceof KeepsGlobals, String(problem));
    assert.ok(problem.message.startsWith(`seed 2 was run once more in fresh threads, and ${SAID.ending}`));
    assert.equal(outcomes.length, 1);
  });
});

describe("a failing run that fresh threads make again", () => {
  it("is a finding, with its lines and its trace", async (context) => {
    const { outcomes, problem } = await made(context, "nothing");
    assert.equal(problem, undefined);
    const [first] = outcomes.filter(({ fails }) => fails);
    assert.ok(first.seed > 1 && outcomes.length === 8);
    assert.match(first.trace ?? "", /main\.mjs:8:9/);
  });
});

describe("the first act that differs", () => {
  const view = { kind: 5, offset: 0, length: 3 };

  /** @param {[what: number, from: number][]} acts */
  function logOf(acts) {
    const log = new Log(Log.memory(70_000), new Int32Array(1), 0);
    for (const [what, from] of acts) log.append(what, 1, 0, 0, 0, 0, from, from + 4, view, 0);
    return log;
  }

  const first = (one, other) => firstDifferent(logOf(one), logOf(other))?.from;

  it("is of the second run, or the last one of both if that run ended sooner", () => {
    assert.equal(first([[0, 0], [0, 4], [0, 8]], [[0, 0], [0, 8], [0, 8]]), 8);
    assert.equal(first([[0, 0]], [[0, 0], [0, 4]]), 4);
    assert.equal(first([[0, 0], [0, 4]], [[0, 0]]), 0);
    assert.equal(first([[0, 0]], [[0, 0]]), undefined);
  });

  it("is none of ordinary accesses: of these a run that notes lines may lack some", () => {
    assert.equal(first([[0, 0], [READ, 4], [0, 8]], [[0, 0], [0, 8]]), undefined);
  });
});
