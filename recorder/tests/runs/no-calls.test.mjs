// Agents that make no call of Atomics. What they do by ordinary accesses is a run, and may race; only where nothing of
// it is seen, nothing was tried.

import assert from "node:assert/strict";
import { join } from "node:path";
import { describe, test } from "node:test";
import { record } from "../../recorder.mjs";
import { RECORD, agentsIn, nodeNow, temporaryFolder } from "../helpers/common.mjs";
import { CHECKER } from "../helpers/needs.mjs";

const COUNTS = `const count = new Int32Array(buffers[0]);
for (let time = 0; time < 5; time += 1) count[0] += 1;`;

/** Without pilots, half as many workers are needed. @param {import("node:test").TestContext} context */
const outcomeOf = (context, body, options = {}) => {
  const module = agentsIn(temporaryFolder(context), body);
  const fixed = { module, agents: 2, buffers: [16], everywhere: true, sabsim: CHECKER, seconds: 5 };
  return record({ ...fixed, ...options });
};

describe("agents without a call of Atomics", { concurrency: 4 }, () => {
  test("race if they count without a lock, and both lines are named", async (context) => {
    const { ending, detail, races, checked, calls, ordinary } = await outcomeOf(context, COUNTS);
    assert.deepEqual([ending, checked, calls, ordinary], ["race", true, 0, 20], detail);
    for (const { lines } of races) for (const line of lines) assert.match(line, /^agents\.mjs:3:\d+$/);
    assert.match(detail, /^agent 0 writes Int32\[0\] at agents\.mjs:3:\d+, without a call of Atomics; agent 1 /);
  });

  test("finish if a race is allowed, or if they access bytes of their own", async (context) => {
    assert.equal((await outcomeOf(context, COUNTS, { races: "allow" })).ending, "finished");
    const own = await outcomeOf(context, "new Int32Array(buffers[0])[agent] = 1;");
    assert.deepEqual([own.ending, own.checked], ["finished", true]);
  });

  test("fail by `check` if it finds something", async (context) => {
    const check = ([buffer]) => new Int32Array(buffer)[0] === 11;
    assert.equal((await outcomeOf(context, COUNTS, { check })).ending, "check");
  });

  for (const ordinary of ["watch", "store", "refuse"]) {
    test(`have tried nothing if they access nothing, --ordinary ${ordinary}`, async (context) => {
      const { ending, detail } = await outcomeOf(context, "", { ordinary });
      assert.equal(ending, "failed");
      assert.match(detail,
        /^no agent has made a call of Atomics, or another access that is seen, .*: nothing was tried$/);
    });
  }

  test("have tried something if --ordinary store sees what they changed", async (context) => {
    const { ending, calls } = await outcomeOf(context, COUNTS, { ordinary: "store" });
    assert.deepEqual([ending, calls], ["finished", 0]);
  });

  test("aren't shortened, and the summary says why", (context) => {
    const folder = temporaryFolder(context);
    const agents = ["--agents", "2", "--everywhere", "--buffers", "16"];
    const words = [RECORD, agentsIn(folder, COUNTS), ...agents, "--seeds", "1..2", "--out", join(folder, "out")];
    const { status, stdout } = nodeNow(words);
    assert.equal(status, 1);
    const lines = stdout.split("\n");
    assert.equal(lines[0], "2 of 2 runs failed: 2 race");
    const why = "it has no call of Atomics that could be left out, or come at another time";
    assert.ok(lines.includes(`not shortened: ${why}`));
    assert.ok(!stdout.includes("nothing was tried"), stdout);
  });
});
