// `node:test` in programs: node's own runner, made anew for each run. A test that fails is the run's failure.

import assert from "node:assert/strict";
import { describe, it } from "node:test";
import { runsOf } from "../helpers/whole-programs.mjs";

const RIGHT = `import { after, afterEach, before, beforeEach, describe, it, mock, test } from "node:test";
import assert from "node:assert/strict";
const order = [];
before(() => order.push("before"));
after(() => {
  order.push("after");
  assert.deepEqual(order, ["before", "a", "each", "b", "each", "c", "inner", "timed", "after"]);
});
test("a", () => { order.push("a"); });
describe("a suite", () => {
  beforeEach(() => order.push("each"));
  it("has b", async () => { await new Promise((done) => setTimeout(done, 10)); order.push("b"); });
  it("has c", () => { order.push("c"); });
});
test("has tests within", async (t) => {
  await t.test("inner", () => { order.push("inner"); });
});
test("mocks", () => {
  const called = mock.fn(() => 1);
  assert.equal(called() + called.mock.callCount(), 2);
});
test("is skipped", { ["skip"]: true }, () => { throw new Error("never"); });
test("is to be done", { ["todo"]: true }, () => { throw new Error("not yet"); });
test("has time", { timeout: 60_000 }, async () => {
  await new Promise((done) => setTimeout(done, 1_000));
  order.push("timed");
});`;

/** The programs, and what is said of each. */
const FAILING = {
  "a test": ['import { test } from "node:test";\ntest("a", () => {});\n'
    + 'test("is wrong", () => { throw new RangeError("no"); });',
    /^agent 0 failed the test "is wrong", at main\.mjs:3:1: RangeError: no\n +at .*main\.mjs:3:32/],
  "a default import": ['import test from "node:test";\n'
    + 'test("is wrong", async () => { await null; throw new Error("no"); });',
    /^agent 0 failed the test "is wrong", at main\.mjs:2:1: Error: no\n/],
  "a test in a suite": ['import { describe, it } from "node:test";\ndescribe("one", () => {\n'
    + '  it("inner", () => { throw 5; });\n  it("other", () => { throw 6; });\n});',
    /^agent 0 failed the test "inner", at main\.mjs:3:3: 5\nand 1 more failed$/],
  "a hook": ['import { before, test } from "node:test";\nbefore(() => { throw new Error("no"); });\n'
    + 'test("a", () => {});',
    /^agent 0 failed the test ".*", at .*main\.mjs:[\d:]+: Error: no\n/],
  "a suite's hook": ['import { before, describe, it } from "node:test";\ndescribe("one", () => {\n'
    + '  before(() => { throw new Error("no"); });\n  it("inner", () => {});\n});',
    /^agent 0 failed the test "one", at main\.mjs:2:1: Error: no\n +at .*main\.mjs:3:24[^]*and 1 more failed$/],
  "a time that is up": ['import { test } from "node:test";\n'
    + 'test("late", { timeout: 10 }, () => new Promise((done) => setTimeout(done, 1_000)));',
    /^agent 0 failed the test "late", at main\.mjs:2:1: "test timed out after 10ms"/],
  "an error in a task": ['import { test } from "node:test";\ntest("late", async () => {\n'
    + '  setImmediate(() => { throw new Error("no"); });\n  await new Promise((done) => setTimeout(done, 5));\n});',
    /^agent 0 failed the test "late", at main\.mjs:2:1: Error: no\n +at .*main\.mjs:3:30/],
};

describe("node:test in a program", { concurrency: 2 }, () => {
  for (const [form, main] of Object.entries({
    "an ES module": RIGHT, "named require": RIGHT.replace(/^import (.*) from (.*);$/gm, "const $1 = require($2);"),
  })) {
    it(`passes if all pass, in each run of the same threads: ${form}`, async (context) => {
      const name = form === "an ES module" ? "main.mjs" : "main.cjs";
      const outcomes = await runsOf(context, { [name]: main }, { seeds: [1, 2, 3] });
      assert.deepEqual(outcomes.map(({ ending, detail }) => [ending, detail]), Array(3).fill(["finished", ""]));
    });
  }

  it("runs in threads in which an earlier run has added to what all objects inherit", async (context) => {
    const main = `import { test } from "node:test";
test("a", () => {});
process.on("exit", () => { Object.prototype.writable = false; });`;
    const outcomes = await runsOf(context, { "main.mjs": main }, { seeds: [1, 2, 3, 4] });
    assert.deepEqual(outcomes.map(({ ending, detail }) => [ending, detail]), Array(4).fill(["finished", ""]));
  });

  for (const [what, [main, says]] of Object.entries(FAILING)) {
    it(`fails by ${what}, with the test's name, message and line`, async (context) => {
      for (const { ending, detail } of await runsOf(context, { "main.mjs": main }, { seeds: [1, 2] })) {
        assert.equal(ending, "failed");
        assert.match(detail, says);
      }
    });
  }

  it("has no runner of other files", async (context) => {
    const [{ detail }] = await runsOf(context, { "main.mjs": 'import { run } from "node:test";\nrun();' });
    assert.match(detail, /used test\.run, which isn't simulated, at main\.mjs:2:1$/);
  });
});
