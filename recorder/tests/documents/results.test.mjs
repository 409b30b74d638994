// What the runner of these tests counts: on files of tests of each kind, run by node, and on reports by hand.

import assert from "node:assert/strict";
import { readFileSync, readdirSync, writeFileSync } from "node:fs";
import { join } from "node:path";
import { test } from "node:test";
import { nodeNow, temporaryFolder } from "../helpers/common.mjs";
import { pathOf } from "../helpers/programs.mjs";
import { closingLines, readReport, wholeOf } from "../helpers/results.mjs";

/** What comes of a file of tests. @param {import("node:test").TestContext} context @param {string} code */
function resultOf(context, code) {
  const file = join(temporaryFolder(context), "some.test.mjs");
  writeFileSync(file, `import { describe, it, test } from "node:test";\n${code}`);
  const { NODE_TEST_CONTEXT: _, ...env } = process.env;
  const words = ["--test-reporter=tap", file];
  const { status, stdout, stderr } = nodeNow(words, { env });
  const { problems, ...counts } = readReport(stdout + stderr, status === 0);
  return { ...counts, problems };
}

test("tests that pass, fail and are left out are counted one by one, in suites too", (context) => {
  const { problems, ...counts } = resultOf(context, `
    test("one", () => {});
    test("two", { skip: "no sabsim" }, () => {});
    describe("suite", () => {
      it("three", () => {});
      it("four", () => { throw new Error("four is wrong"); });
      it("five", { skip: "no browser" }, () => {});
      it("six", (the) => the.skip("no sabsim"));
    });
  `);
  const leftOut = ["no sabsim", "no browser", "no sabsim"];
  assert.deepEqual(counts, { passed: 2, failed: 1, leftOut, failing: ["four"] });
  assert.match(problems, /^ *not ok 2 - four\n[^]*four is wrong/);
  assert.ok(!problems.includes("suite"));
});

test("a file without a test, or that ends early, has failed", (context) => {
  const failing = ["", 'test("one", () => process.exit(0));', "throw new Error('at once');", "syntax error",
    'test("one", () => process.exit(3));',
    'test("one", () => {}); setTimeout(() => process.exit(1), 300); test("two", () => new Promise(() => {}));'];
  for (const code of failing) {
    const { failed, problems } = resultOf(context, code);
    assert.ok(failed > 0 && problems.length > 0, code);
  }
  const problems = "the report has no counts: the process has ended before\n";
  assert.deepEqual(readReport("", true), { passed: 0, failed: 1, leftOut: [], failing: [], problems });
  assert.equal(readReport("# pass 5\n", false).failed, 1);
  assert.equal(readReport("# pass 5\n# fail 1\n", true).failed, 2);
});

/** What comes of a file. @param {Partial<import("../helpers/results.mjs").Result>} result */
const fileWith = (result) => ({ passed: 0, failed: 0, leftOut: [], failing: [], problems: "", ...result });

const SEVEN = [fileWith({ passed: 5, leftOut: ["no sabsim", "no browser", "no sabsim"] }), fileWith({ passed: 2 })];
const LEFT_OUT = "left out: 2 tests (no sabsim), 1 test (no browser)";
const SECOND = [{ name: "jobs.test.mjs", failing: ["one is killed", "all, at last"] },
  { name: "a.test.mjs", failing: [] }];
const SECOND_LINE =
  "passed only the second time: jobs.test.mjs (one is killed), jobs.test.mjs (all, at last), a.test.mjs";

test("before the counts are at most two lines: what was left out, and what passed only the second time", () => {
  assert.deepEqual(closingLines(wholeOf([fileWith({ passed: 3 })])), ["3 passed, 0 failed"]);
  assert.deepEqual(closingLines(wholeOf(SEVEN)), [LEFT_OUT, "7 passed, 0 failed"]);
  assert.deepEqual(closingLines(wholeOf(SEVEN, SECOND)), [LEFT_OUT, SECOND_LINE, "7 passed, 0 failed"]);
});

test("if all is required, each test that was left out or passed only the second time has failed", () => {
  const lines = closingLines(wholeOf(SEVEN, SECOND, { requireAll: true }));
  assert.deepEqual(lines, [LEFT_OUT, SECOND_LINE, "4 passed, 6 failed"]);
  assert.deepEqual(closingLines(wholeOf([fileWith({ passed: 3 })], [], { requireAll: true })), ["3 passed, 0 failed"]);
});

test("a test that is left out for lack of sabsim has failed if sabsim is given", () => {
  const { passed, failed, lines } = wholeOf([...SEVEN, fileWith({ failed: 1 })], [], { hasSabsim: true });
  assert.deepEqual([passed, failed, lines], [7, 3, [LEFT_OUT]]);
});

test("a test says what it needs by the one helper: no file has another way to leave a test out", () => {
  const OTHER_WAY = /\b(?:skip|todo)(?:: | \})|\.(?:skip|todo)\(/;
  const files = ["recorder/tests", "tests/docs", "tests/install"].flatMap((folder) =>
    readdirSync(pathOf(folder), { recursive: true }).map((name) => `${folder}/${name}`));
  const others = files.filter((name) => name.endsWith("mjs") && !/\/(?:needs|results\.test)\.mjs$/.test(name));
  assert.ok(others.length > 150);
  assert.deepEqual(others.filter((name) => OTHER_WAY.test(readFileSync(pathOf(name), "utf8"))), []);
});
