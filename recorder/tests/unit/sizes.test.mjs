// Outside the tests a file of the recorder with more than 400 lines is listed here, with the reason why it is one file.
// No function has more than 40. A function is found by how its lines are indented: from its first line to the brace
// that stands as far to the left.

import assert from "node:assert/strict";
import { readFileSync, readdirSync } from "node:fs";
import { test } from "node:test";

const RECORDER = new URL("../../", import.meta.url);
const MANY_IN_FILE = 400;
const MOST_IN_FUNCTION = 40;

/** A line that ends with the brace of a function's body, or of a method's; and one with which a signature goes on. */
const OPENS = /(?:=> \{|\) \{)$/;
const BRANCHES = /^ *(?:\} )?(?:else|if|for|while|switch|catch|do|try)\b/;

/**
 * @param {string} text of a module
 * @returns {{ name: string, lines: number }[]} its functions
 */
function functionsIn(text) {
  const lines = text.split("\n");
  return lines.flatMap((line, at) => {
    if (!OPENS.test(line) || BRANCHES.test(line)) return [];
    const indent = /^ */.exec(line)[0];
    let first = at;
    // A signature of several lines ends with a brace of its own.
    if (/^ *[)}]/.test(line)) first = lines.findLastIndex((each, number) => number < at && each.startsWith(indent)
      && /\S/.test(each[indent.length]));
    const last = lines.findIndex((each, number) => number > at && each.startsWith(`${indent}}`));
    return [{ name: lines[first].trim(), lines: last - first + 1 }];
  });
}

const FILES = readdirSync(RECORDER, { recursive: true, encoding: "utf8" })
  .filter((file) => /\.[cm]?[jt]s$/.test(file) && !/^(?:tests|bench|examples)\//.test(file))
  .map((file) => ({ file, text: readFileSync(new URL(file, RECORDER), "utf8").replaceAll("\r\n", "\n") }));

/** The files with more lines, and why each is one. */
const LONG = Object.freeze({
  "lib/every/rewriting/live.mjs": "one class goes over a tree backward: each kind of tree leads to others of it",
  "lib/every/state/prelude.mjs": "what stands for the engine's functions is one module: it is rewritten as a whole",
  "lib/every/state/walk.mjs": "the walk of values is one class: what it shows of each kind goes into one text",
  "lib/program/loop/loop.mjs": "an event loop is one class with what it serves: its methods share what it chooses by",
});

test("the files of more than 400 lines are those that are listed, each with a reason", () => {
  assert.ok(FILES.length > 150, `${FILES.length} files`);
  const long = FILES.filter(({ text }) => text.split("\n").length - 1 > MANY_IN_FILE).map(({ file }) => file);
  assert.deepEqual(long.sort(), Object.keys(LONG).sort());
});

test("no function has more than 40 lines", () => {
  const functions = FILES.flatMap(({ file, text }) => functionsIn(text).map((each) => ({ file, ...each })));
  assert.ok(functions.length > 1_000, `${functions.length} functions`);
  assert.deepEqual(functions.filter((each) => each.lines > MOST_IN_FUNCTION), []);
});

test("functions are found in each form, with their lines", () => {
  const forms = [
    "function one(", "  a,", "  b,", ") {", "  return a;", "}", "const two = () => {", "  if (a) {", "    b();", "  }",
    "};", "class Of {", "  static async three({ a }) {", "    return a;", "  }", "  #four = (a) => {", "  };", "}",
  ];
  assert.deepEqual(functionsIn(forms.join("\n")).map(({ name, lines }) => [name, lines]), [
    ["function one(", 6], ["const two = () => {", 5], ["static async three({ a }) {", 3], ["#four = (a) => {", 2],
  ]);
});
