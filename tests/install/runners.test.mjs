// Uses `sabsim/test` of the installed package in node's own test runner, in mocha, in jest and in ava: by the lines
// that the guide shows, as ES modules and as CommonJS, with a lock that is right and with one that is wrong.
// `tools/fetch runners` fetches the runners.

import assert from "node:assert/strict";
import {
  copyFileSync, existsSync, mkdirSync, mkdtempSync, readFileSync, readdirSync, symlinkSync, writeFileSync,
} from "node:fs";
import { availableParallelism } from "node:os";
import { join } from "node:path";
import { test } from "node:test";
import { needing } from "../../recorder/tests/helpers/needs.mjs";
import { NODES, PROJECT, TOOLS, TOP, packed, projectWith, room, runOf } from "./installed.mjs";

const RUNNERS = join(TOOLS, "runners/usr/share/nodejs");
const MOCHA = join(RUNNERS, "mocha/bin/mocha.js");
const JEST = join(RUNNERS, "jest/bin/jest.js");
const AVA = join(RUNNERS, "ava/entrypoints/cli.mjs");
const BABEL = { plugins: [join(RUNNERS, "@babel/plugin-transform-modules-commonjs")] };
const VM_MODULES = "--experimental-vm-modules";

const GUIDE = readFileSync(join(TOP, "recorder/README.md"), "utf8").split("\n");
const NAME = "no wake-up is lost";

/** @param {string} begins how the test's line begins @returns {string[]} it, and the line before it, as in the guide */
function shown(begins) {
  const at = GUIDE.findIndex((line) => line.startsWith(`    ${begins}`));
  assert.notEqual(at, -1, begins);
  return GUIDE.slice(at - 1, at + 1).map((line) => line.slice(4));
}

const IN_NODE = ['import { test } from "node:test";', ...shown(`test("${NAME}", () =>`)];
const IN_MOCHA = shown(`it("${NAME}", () =>`);
const IN_JEST = shown(`test("${NAME}", () =>`);
const IN_AVA = ['import test from "ava";', ...shown(`test("${NAME}", (t) =>`)];

/**
 * @typedef {object} Form how a test is written and run
 * @property {string} name
 * @property {string[]} lines of the test, as an ES module
 * @property {string[]} words of node's command line, before the name of the file
 * @property {boolean} [isCommonjs] whether the test is written in CommonJS
 * @property {string[]} [flags] of node, for all its processes
 * @property {object} [babel] what babel is to do with the test
 */

/** @type {Form[]} */
const FORMS = [
  { name: "node:test", lines: IN_NODE, words: ["--test", "--test-reporter=spec"] },
  { name: "mocha", lines: IN_MOCHA, words: [MOCHA] },
  { name: "jest with ES modules", lines: IN_JEST, words: [JEST], flags: [VM_MODULES] },
  { name: "ava", lines: IN_AVA, words: [AVA, "--timeout=600s"] },
  { name: "node:test, CommonJS", lines: IN_NODE, words: ["--test", "--test-reporter=spec"], isCommonjs: true },
  { name: "mocha, CommonJS", lines: IN_MOCHA, words: [MOCHA], isCommonjs: true },
  { name: "jest, CommonJS", lines: IN_JEST, words: [JEST], isCommonjs: true },
  { name: "jest with ES modules, CommonJS", lines: IN_JEST, words: [JEST], isCommonjs: true, flags: [VM_MODULES] },
  { name: "jest, an ES module that babel compiles", lines: IN_JEST, words: [JEST], babel: BABEL },
  { name: "ava, CommonJS", lines: IN_AVA, words: [AVA, "--timeout=600s"], isCommonjs: true },
];

/** The same line in CommonJS, if it imports something. @param {string} line */
const required = (line) => line.replace(/^import (.*) from (.*);$/, "const $1 = require($2);");

/** The seeds of the tests' runs, and how the first failing run is reported. */
const SEEDS = {
  right: { agents: "1..5", program: "1..3" },
  wrong: { agents: "1..50", program: "31" },
};
const FAILS = ["seed 10: deadlock; the 9 runs before it passed", "seed 31: deadlock"];

/**
 * The text of the tests of a lock: that of the guide, and the same for a program.
 * @param {Form} form
 * @param {"right" | "wrong"} lock
 */
function textOf({ lines, isCommonjs }, lock) {
  const args = lock === "right" ? '["counting"]' : "[]";
  const shownTest = lines.at(-1).replace(" }", `, args: ${args}, shorten: false }`);
  const ofAgents = shownTest.replace(/seeds: "[^"]*"/, `seeds: "${SEEDS[lock].agents}"`);
  const ofProgram = shownTest.replace(/seeds: "[^"]*"/, `seeds: "${SEEDS[lock].program}"`)
    .replace("assertAgents", "assertProgram").replace('module: "./lock.mjs"', 'program: "./main.mjs"')
    .replace(NAME, `${NAME} in a program`);
  const imports = lines.slice(0, -1).map((line) => line.replace("{ assertAgents }", "{ assertAgents, assertProgram }"));
  const own = isCommonjs ? imports.map(required) : imports;
  return [...own, "", ofAgents, "", ofProgram, ""].join("\n");
}

const LOCKS = /** @type {const} */ (["right", "wrong"]);
const CODE = ["lock.mjs", "mutex.mjs", "main.mjs"];

/** Makes the folder of a form in a project that has the package; returns its path. */
function folderOf(form, at, project) {
  const folder = join(project, `form-${at}`);
  mkdirSync(folder);
  for (const name of CODE) copyFileSync(join(PROJECT, name), join(folder, name));
  const type = form.isCommonjs || form.babel !== undefined ? "commonjs" : "module";
  writeFileSync(join(folder, "package.json"), JSON.stringify({ name: "own", version: "1.0.0", private: true, type }));
  if (form.babel !== undefined) writeFileSync(join(folder, "babel.config.json"), JSON.stringify(form.babel));
  for (const lock of LOCKS) writeFileSync(join(folder, `${lock}.test.js`), textOf(form, lock));
  return folder;
}

/** Runs the tests of a lock. What they keep is in a folder of its own. */
async function resultOf(form, folder, [node, ...before], lock) {
  const temporary = mkdtempSync(join(room, "kept-"));
  const env = { TMPDIR: temporary, NO_COLOR: "1", CI: "1", NODE_OPTIONS: form.flags?.join(" ") ?? "" };
  const { status, output, errors } = await runOf(folder, node, [...before, ...form.words, `${lock}.test.js`], env);
  return { status, text: `${output}\n${errors}`, temporary };
}

/** What must not be beside a failure: values that nobody compared, frames of the recorder, ends that aren't so. */
const MISLEADING = [
  /Expected value/, /visual difference/, /AssertionError/, /generatedMessage/, /recorder[/\\]lib/, /did not exit/,
  /Cannot find module/, /process\.on/,
];

/** Looks whether the failing tests show what they should. */
function seesFailures({ text, temporary }, folder) {
  for (const fails of FAILS) assert.match(text, new RegExp(`RunFailed[^]{1,30}${fails}`), text);
  const waits = /agent \d .*waits at byte 4 of block 0.*: its call \d+, \["wait", .*\], at mutex\.mjs:14:67/g;
  assert.ok(text.match(waits)?.length >= 2, text);
  const acts = / \d+ wait +wait\(.* waits at .*, first in line, at mutex\.mjs:14:67/g;
  assert.ok(text.match(acts)?.length >= 2, text);
  // Where the files are, and they are there.
  const kept = new Map([...text.matchAll(/kept in (\S+): (seed-.*\.html)/g)].map(([, path, names]) => [path, names]));
  assert.equal(kept.size, 2, text);
  for (const [path, names] of kept) {
    assert.ok(path.startsWith(temporary), text);
    assert.deepEqual(readdirSync(path).sort(), names.split(", ").sort());
  }
  // The lines of the tests.
  const lines = readFileSync(join(folder, "wrong.test.js"), "utf8").split("\n");
  const numbers = lines.flatMap((line, at) => (line.includes(`("${NAME}`) ? [at + 1] : []));
  assert.equal(numbers.length, 2);
  for (const number of numbers) assert.match(text, new RegExp(`wrong\\.test\\.js:${number}:\\d+\\b`), text);
  for (const words of MISLEADING) assert.doesNotMatch(text, words);
}

const isThere = existsSync(RUNNERS);

/** Makes a project that has the package, with a folder for each form. */
function foldersOfForms() {
  const project = projectWith("for-runners", packed("runners", []), []);
  symlinkSync(join(RUNNERS, "ava"), join(project, "node_modules/ava"));
  return FORMS.map((form, at) => folderOf(form, at, project));
}

const folders = isThere ? foldersOfForms() : [];

for (const { name, command, needs } of NODES) {
  const how = { ...(isThere ? needs : needing("runners by tools/fetch", false)), concurrency: availableParallelism() };
  test(`the package in test runners, with ${name}`, how, async (the) => {
    await Promise.all(FORMS.map((form, at) => the.test(form.name, async () => {
      const right = await resultOf(form, folders[at], command, "right");
      assert.equal(right.status, 0, right.text);
      const wrong = await resultOf(form, folders[at], command, "wrong");
      // mocha's status is the number of failures.
      assert.ok(wrong.status > 0, `${wrong.status}\n${wrong.text}`);
      seesFailures(wrong, folders[at]);
    })));
  });
}
