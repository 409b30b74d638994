// tests/other-node.txt: which files of the recorder's tests a plain ./check runs by the second node, and why.

import assert from "node:assert/strict";
import { test } from "node:test";
import { filesBelow, textOf } from "./documents.mjs";

const TESTS = "recorder/tests/";
const ROW = /^((?:[\w-]+\/)+[\w-]+\.test\.mjs) +(\S.*)$/;

/** A file whose tests of one version are of node 20, the older one. */
const OF_OLDER = "documents/examples.test.mjs";

const rows = textOf("tests/other-node.txt").split("\n").filter((line) => line !== "" && !line.startsWith("#"));
const listed = rows.map((row) => ROW.exec(row)?.[1] ?? row);

test("each row has a file of tests, once, and a reason", () => {
  const files = new Set(filesBelow("recorder/tests").map((path) => path.slice(TESTS.length)));
  assert.deepEqual(listed.filter((name) => !files.has(name)), []);
  assert.equal(new Set(listed).size, listed.length);
  assert.ok(listed.length >= 8 && listed.length <= 15, `${listed.length} rows`);
});

test("each file with tests of what only later versions of node have is listed", () => {
  const asks = (path) => path.endsWith(".test.mjs") && textOf(path).includes("/where-node-has-it.mjs");
  const asking = filesBelow("recorder/tests").filter(asks).map((path) => path.slice(TESTS.length));
  assert.ok(asking.length >= 5, asking.join(" "));
  assert.deepEqual(asking.filter((name) => !listed.includes(name)), [OF_OLDER]);
});
