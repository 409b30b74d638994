// The run of the first seed is made once more at the end. Where it isn't the same, the module keeps something in its
// own variables, and the summary says so. How the runs ended stays as it was.

import assert from "node:assert/strict";
import { describe, test } from "node:test";
import { merged, partsOf } from "../../lib/command/merging.mjs";
import { summaryText } from "../../lib/command/summary-text.mjs";
import { Summary } from "../../lib/command/summary.mjs";
import { differenceBetween, rememberingText } from "../../lib/seeds/first-again.mjs";
import { explore } from "../../recorder.mjs";
import { assertAgents } from "../../testing.mjs";
import { commandHere } from "../helpers/command-here.mjs";
import { commandThere, fileIn, moduleOf, temporaryFolder } from "../helpers/common.mjs";

const SIDE_BY_SIDE = { concurrency: 4 };

const MODULE = `
  export const setup = { agents: 2, buffers: [8] };
  let runs = 0;
  export default function agent({ buffers, args: [way] }) {
    const words = new Int32Array(buffers[0]);
    runs += 1;
    if (way === "ending" && runs > 1) throw new Error("once more");
    if (way === "bytes") Atomics.store(words, 1, runs);
    if (way === "acts") Atomics.load(words, runs > 1 ? 1 : 0);
    Atomics.add(words, 0, 1);
  }`;

/** What a summary's line says about each way. */
const SAID = {
  ending: "ended in another way (finished, then threw)", bytes: "left other bytes", acts: "did something else",
};

const textOf = (way, seed = 1) =>
  `seed ${seed} was run once more at the end, and ${SAID[way]}: `
  + "the module keeps something in its own variables: try --fresh";

/**
 * Runs the command line, and gives its summary as an object of JSON, and the status. If it has several jobs, they and
 * it are processes of their own.
 */
async function summaryOf(context, way, words) {
  // No worker begins that isn't needed.
  const agents = ["--agents", "2", "--everywhere"];
  const all = [moduleOf(context, MODULE), "--format", "json", ...agents, ...words, "--", way];
  const { status, stdout, stderr } = words.includes("--jobs") ? await commandThere(all) : await commandHere(all);
  if (stdout === "") throw new Error(stderr);
  return { status, summary: JSON.parse(stdout) };
}

describe("a module that keeps something from run to run", SIDE_BY_SIDE, () => {
  for (const [way, status] of [["ending", 1], ["bytes", 0], ["acts", 0]]) {
    const asked = [["--seeds", "1..3"], ["--seeds", "1..40", "--jobs", "2"], ["--seeds", "1..3", "--check", "0"]];
    for (const words of asked) {
      test(`is noticed by its ${way}: ${words.join(" ")}`, async (context) => {
        const { status: is, summary } = await summaryOf(context, way, words);
        assert.equal(is, status);
        assert.equal(summary.remembers.differs, way);
        assert.ok(summaryText(summary).split("\n").includes(textOf(way)));
        const [, last] = words[1].split("..");
        // The run that is compared counts nowhere.
        assert.deepEqual([summary.runs, summary.failed], [Number(last), status === 0 ? 0 : summary.failed]);
        assert.equal(summary.sabsim.checked, words.includes("--check") ? 0 : Number(last));
      });
    }
  }

  test("is noticed behind the first failing run, too", async (context) => {
    const { summary } = await summaryOf(context, "ending", ["--seeds", "1..9", "--fail-fast"]);
    assert.deepEqual([summary.runs, summary.firstFailing.seed], [2, 2]);
    assert.deepEqual(summary.remembers,
      { seed: 1, differs: "ending", was: "finished", is: "failed", threw: true, real: false });
  });

  test("is noticed in a shard by its own first seed", async (context) => {
    const { summary } = await summaryOf(context, "bytes", ["--seeds", "1..6", "--shard", "2/2"]);
    assert.equal(summary.remembers.seed, 4);
  });

  for (const words of [["--seeds", "7"], ["--seeds", "1..3", "--fresh"]]) {
    test(`isn't looked for with ${words.join(" ")}`, async (context) => {
      const { summary } = await summaryOf(context, "bytes", words);
      assert.equal(summary.remembers, null);
    });
  }

  test("isn't reported if it keeps nothing", async (context) => {
    const { summary } = await summaryOf(context, "nothing", ["--seeds", "1..20"]);
    assert.equal(summary.remembers, null);
  });

  test("is in the last outcome of explore alone", async (context) => {
    const options = { module: moduleOf(context, MODULE), seeds: 3, args: ["bytes"], agents: 2, everywhere: true };
    const outcomes = [];
    for await (const { seed, remembers } of explore(options)) outcomes.push([seed, remembers]);
    const found = { seed: 1, differs: "bytes", was: "finished", is: "finished", threw: false, real: false };
    assert.deepEqual(outcomes, [[1, undefined], [2, undefined], [3, found]]);
    for await (const { remembers, fails } of explore({ ...options, args: ["ending"], failFast: true })) {
      assert.equal(remembers?.differs, fails ? "ending" : undefined);
    }
  });

  test("is reported if a test of agents fails", async (context) => {
    const out = temporaryFolder(context);
    const options = { module: moduleOf(context, MODULE), seeds: 3, args: ["ending"], agents: 2, everywhere: true, out };
    await assert.rejects(assertAgents(options), (error) => error.message.includes(textOf("ending")));
  });
});

test("which of two runs differ, and how", () => {
  const run = { seed: 5, ending: "finished", detail: "", state: { hash: "a" }, acts: "b" };
  assert.equal(differenceBetween(run, { ...run }), undefined);
  const others = { ending: { ending: "failed", detail: "agent 0 threw Error: no" }, bytes: { state: { hash: "c" } },
    acts: { acts: "d" } };
  for (const [differs, other] of Object.entries(others)) {
    const found = differenceBetween(run, { ...run, ...other });
    assert.deepEqual([found.differs, found.seed], [differs, 5]);
    assert.equal(rememberingText(found), textOf(differs, 5));
  }
});

test("the two endings are in words for people", () => {
  const run = { seed: 5, state: { hash: "a" }, acts: "b" };
  const thrown = { ...run, ending: "failed", detail: "agent 1 threw Error: no" };
  const stopped = { ...run, ending: "failed", detail: "agent 1 made no call for 10 s" };
  const limited = { ...run, ending: "limit", detail: "the run has made 100 moves" };
  const check = { ...run, ending: "check", detail: "check returned false" };
  const pairs = [
    [thrown, check, "threw, then check failed"], [stopped, limited, "stopped, then limit met"],
    [limited, thrown, "limit met, then threw"],
  ];
  for (const [first, again, said] of pairs) {
    const found = differenceBetween(first, again);
    assert.equal(rememberingText(found).includes(`, and ended in another way (${said}): `), true,
      rememberingText(found));
    assert.deepEqual([found.was, found.is], [first.ending, again.ending]);
  }
});

test("joined summaries keep the difference of the lowest seed", (context) => {
  const folder = temporaryFolder(context);
  const options = { ordinary: "watch", races: "fail", unrecorded: "fail", preloads: false, args: [] };
  const parts = [6, 4].map((seed) => {
    const summary = new Summary(options);
    summary.remembers = { seed, differs: "bytes", was: "finished", is: "finished", threw: false, real: false };
    const asked = { module: "m.mjs", digest: "", seeds: [{ first: 1, last: 9 }], shard: null, options };
    const seeds = [{ first: seed, last: seed + 1 }];
    return fileIn(folder, `${seed}.json`, JSON.stringify({ summary: 4, asked, seeds, ...summary.data() }));
  });
  assert.equal(merged(parts.flatMap(partsOf)).remembers.seed, 4);
});
