// The command line of the tests themselves: which files it asks for, and what it is mistaken in. And that a file of the
// unit tests can start no thread and no process.

import assert from "node:assert/strict";
import { spawnSync } from "node:child_process";
import { existsSync, readFileSync, readdirSync, writeFileSync } from "node:fs";
import { join } from "node:path";
import { test } from "node:test";
import { fileURLToPath } from "node:url";
import { nodeNow, temporaryFolder } from "../helpers/common.mjs";
import { Mistaken, REFUSAL, WITHOUT_OTHERS, askedBy, isUnitTest, namesOfAll } from "../helpers/test-files.mjs";

const TESTS = new URL("../", import.meta.url);
const RUNNER = fileURLToPath(new URL("run.mjs", TESTS));

/** Runs the tests' own runner. @param {string[]} words @param {string} [sabsim] */
function ran(words, sabsim) {
  const { NODE_TEST_CONTEXT: _, ...env } = { ...process.env, SABSIM: sabsim };
  const { status, stdout, stderr } = nodeNow([RUNNER, ...words], { env });
  return { status, last: stdout.trimEnd().split("\n").slice(-2), stdout, stderr };
}

test("without a word fuzz and bench are left out, with --all nothing is, and words name files", () => {
  const others = { isUnit: false, isNamed: false, requireAll: false };
  assert.deepEqual(askedBy(["--all"]), { names: namesOfAll(), ...others });
  const { names: usual, ...rest } = askedBy([]);
  assert.deepEqual([rest, usual], [others, namesOfAll().filter((name) => !/^(fuzz|bench)\//.test(name))]);
  assert.ok(usual.length < namesOfAll().length);
  assert.deepEqual(askedBy(["fuzz/"]).names.sort(), namesOfAll().filter((name) => name.startsWith("fuzz/")).sort());
  assert.deepEqual(askedBy(["nearest"]), { ...others, names: ["unit/nearest.test.mjs"], isNamed: true });
  const { names, requireAll } = askedBy(["--require-all", "page-", "nearest"]);
  assert.deepEqual([...names].sort(), namesOfAll().filter((name) => /page-|nearest/.test(name)).sort());
  assert.ok(names.length > 4 && requireAll);
});

test("files begin in the order of the seconds that they took the last time, and new ones first", (context) => {
  const helper = JSON.stringify(new URL("helpers/test-files.mjs", TESTS));
  const env = { ...process.env, XDG_CACHE_HOME: temporaryFolder(context) };
  const namesAfter = (seconds) => {
    const code = `import { keepSeconds, namesOfAll } from ${helper};
      console.log(JSON.stringify(namesOfAll()));
      keepSeconds(Object.entries(${JSON.stringify(seconds)}).map(([name, seconds]) => ({ name, seconds })));`;
    const words = ["--input-type=module", "-e", code];
    return JSON.parse(spawnSync(process.execPath, words, { encoding: "utf8", env }).stdout);
  };
  const all = namesAfter({ "unit/nearest.test.mjs": 1, "unit/outbox.test.mjs": 2 });
  assert.deepEqual(all, [...all].sort());
  const others = all.filter((name) => !/\/(nearest|outbox)\./.test(name));
  const [nearest, outbox] = ["unit/nearest.test.mjs", "unit/outbox.test.mjs"];
  assert.deepEqual(namesAfter({ [nearest]: 3 }), [...others, outbox, nearest]);
  assert.deepEqual(namesAfter({}), [...others, nearest, outbox]);
});

test("--unit asks for the files that start nothing, and a word for some of them", () => {
  const unit = askedBy(["--unit"]).names;
  assert.deepEqual(unit.sort(), namesOfAll().filter((name) => name.startsWith("unit/")).sort());
  assert.ok(unit.length > 10);
  const { names, isUnit } = askedBy(["options", "--unit"]);
  assert.deepEqual([names, isUnit], [["unit/options.test.mjs"], true]);
  for (const name of unit) assert.ok(existsSync(new URL(name, TESTS)), name);
});

test("each file of tests is in a folder that is asked for", () => {
  const files = readdirSync(TESTS, { recursive: true, encoding: "utf8" }).filter((name) => name.endsWith(".test.mjs"));
  assert.deepEqual(namesOfAll().sort(), files.map((name) => name.replaceAll("\\", "/")).sort());
});

/** What a file imports, and what that imports, and so on: the URLs of files, and the names of node's modules. */
function importedBy(file, found = new Set()) {
  const text = readFileSync(file, "utf8");
  for (const [, name] of text.matchAll(/(?:\bfrom |\bimport\(?|\brequire\()\s*"([^"]+)"/g)) {
    const each = name.startsWith(".") ? new URL(name, file).href : name.replace(/^node:/, "");
    if (found.has(each)) continue;
    found.add(each);
    if (name.startsWith(".") && /\.[cm]?js$/.test(name) && existsSync(new URL(each))) importedBy(new URL(each), found);
  }
  return found;
}

/** It tries file handles, of which node refuses some functions together with threads and processes. */
const TRIES_HANDLES = "programs/program-twins.test.mjs";

test("each file that imports nothing to start a thread or a process with is one of the unit tests", () => {
  const startsNothing = namesOfAll().filter((name) => {
    const imported = importedBy(new URL(name, TESTS));
    return !["worker_threads", "child_process", "cluster"].some((each) => imported.has(each));
  });
  assert.ok(startsNothing.length > 5, startsNothing.join());
  assert.deepEqual(startsNothing.filter((name) => !isUnitTest(name)), [TRIES_HANDLES]);
});

test("a word that no name contains, and an option that there isn't, are named", () => {
  const mistakes = {
    'no name of a file in recorder/tests contains "nearset"': ["nearest", "nearset"],
    'no name of a file that starts no thread and no process in recorder/tests contains "jobs"': ["--unit", "jobs"],
    "there is no option --units: is --unit meant?": ["--units"],
    "there is no option --require-all=1: is --require-all meant?": ["--require-all=1"],
    "there is no option --watch: there are --all, --unit, --require-all": ["--watch"],
  };
  for (const [message, words] of Object.entries(mistakes)) {
    assert.throws(() => askedBy(words), (error) => error instanceof Mistaken && error.message === message, message);
  }
});

test("the runner prints the counts of the files that are asked for, and refuses what is mistaken", () => {
  const { status, last } = ran(["nearest", "--require-all"]);
  assert.deepEqual([status, last[1]], [0, "3 passed, 0 failed"]);
  const unknown = ran(["nearset"]);
  const complaint = 'tests: no name of a file in recorder/tests contains "nearset"\n';
  assert.deepEqual([unknown.status, unknown.stdout, unknown.stderr], [2, "", complaint]);
  const nowhere = ran(["nearest"], "/nowhere/sabsim");
  const lacking = "tests: SABSIM is /nowhere/sabsim, which is no file: ./build makes crates/sabsim/out/sabsim\n";
  assert.deepEqual([nowhere.status, nowhere.stdout, nowhere.stderr], [2, "", lacking]);
});

test("what was left out is printed before the counts, and fails if all is required", () => {
  const free = ran(["page-browser"]);
  const [, count] = /^left out: (\d+) tests \(no sabsim\)$/.exec(free.last[0]);
  const [, passed] = /^(\d+) passed, 0 failed$/.exec(free.last[1]);
  assert.deepEqual([free.status, Number(count) > 10], [0, true], free.stdout);
  const strict = ran(["page-browser", "--require-all"]);
  assert.deepEqual([strict.status, strict.last], [1, [free.last[0], `${passed} passed, ${count} failed`]]);
});

for (const [what, code] of Object.entries({
  "a thread": 'new (await import("node:worker_threads")).Worker("", { eval: true });',
  "a process": '(await import("node:child_process")).spawn("true").on("error", () => {});',
  "a process, and waits for it": '(await import("node:child_process")).spawnSync("true");',
})) {
  test(`a file of the unit tests that starts ${what} fails`, (context) => {
    const file = join(temporaryFolder(context), "some.test.mjs");
    writeFileSync(file, `import { test } from "node:test"; test("starts", async () => { ${code} });`);
    const { NODE_TEST_CONTEXT: _, ...env } = process.env;
    const { status, stdout } = nodeNow([...WITHOUT_OTHERS, file], { env });
    assert.equal(status, 1, stdout);
    assert.ok(stdout.includes(REFUSAL), stdout);
    assert.equal(spawnSync(process.execPath, [file], { env }).status, 0);
  });
}
