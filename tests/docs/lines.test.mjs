// No line of the code, the scripts and the documents has more than 120 columns, as `.editorconfig` asks of editors.

import assert from "node:assert/strict";
import { test } from "node:test";
import { filesBelow, textOf } from "./documents.mjs";

const MOST = 120;

/** Code and documents by their endings. A file without an ending is a script if it begins with `#!`. */
const ENDINGS = /\.(?:[cm][jt]s|py|rt|c|md)$/;

/** Texts that a program prints, or with which its output is compared, each in one line. By file: how they begin. */
const COMPARED = {
  "crates/script_tests/src/accesses.rt": ['        "0 0 0 act '],
  "crates/script_tests/src/run/flushing.rt": ['    r#"{"event":0,', '    "data race at byte 7 of block 0: '],
  "crates/sab_cli/src/command/help.rt": ["  data race at byte 1 of block 0: "],
};

/** @param {string} path @returns {boolean} */
const isScript = (path) => !/\.\w+$/.test(path) && textOf(path).startsWith("#!");

/**
 * Whether a line has to be one: an object of JSON, a tactic of a proof, which `rt fmt` writes in one line, or of a
 * document a row of a table, a line of a block of code, or one that begins with a link.
 * @param {string} path of its file
 * @param {string} line
 */
function isWhole(path, line) {
  if (line.startsWith('{"') || COMPARED[path]?.some((text) => line.startsWith(text))) return true;
  if (path.endsWith(".rt")) return /^ *#\[tactic\(/.test(line);
  return path.endsWith(".md") && (/ \| |^ {4}/.test(line) || /^\[[^\]]*\]\([^)]*\)\S*$/.test(line));
}

/** @param {string} path @param {string} text @returns {string[]} where its lines are that are too long */
const longIn = (path, text) => text.split("\n").flatMap((line, at) => {
  const columns = [...line].length;
  return columns > MOST && !isWhole(path, line) ? [`${path}:${at + 1}: ${columns} columns`] : [];
});

test("no line of code, scripts and documents has more than 120 columns", () => {
  const files = filesBelow("").filter((path) => ENDINGS.test(path) || isScript(path));
  assert.ok(files.length > 900, `${files.length} files`);
  assert.deepEqual(files.flatMap((path) => longIn(path, textOf(path))), []);
});

test("a line that is too long is found, and one that has to be whole isn't", () => {
  const long = "word ".repeat(25).trim();
  assert.deepEqual(longIn("a.mjs", `a\n${long}\n${"é".repeat(120)}`), ["a.mjs:2: 124 columns"]);
  const whole = [`    ${long}`, `| ${long} | b |`, `[${long}](b.md),`];
  assert.deepEqual(longIn("a.md", whole.join("\n")), []);
  assert.deepEqual(longIn("a.py", whole.join("\n")).length, 3);
  assert.deepEqual(longIn("tests/a", `{"a":"${long}"}`), []);
});
