// README.md is short, and each number of edits, cases and the like in a document is that of the repository.

import assert from "node:assert/strict";
import { readdirSync } from "node:fs";
import { join } from "node:path";
import { test } from "node:test";
import { DOCUMENTS, TOP, proseOf, textOf } from "./documents.mjs";

/** A number, and what there are so many of. */
const COUNT = /\b(\d[\d,]*) ((?:[a-z-]+ ){0,2}?(?:edits|cases|scripts|traces|changes|cuts|crates|programs|tests))\b/g;

/** The number that a constant of a test has. @param {string} path @param {RegExp} constant */
const constantOf = (path, constant) => Number(constant.exec(textOf(path))[1].replaceAll("_", ""));

/** How many files a folder has. @param {string} folder */
const filesIn = (folder) => readdirSync(join(TOP, folder)).length;

/** How many there are, by the words that documents have for them. */
const COUNTED = new Map([
  ["programs", () => filesIn("recorder/bench/programs")],
  ["classic wrong programs", () => filesIn("recorder/bench/programs")],
  ["random traces", () =>
    constantOf("recorder/tests/fuzz/judge.test.mjs", /^const RANDOM = seedsTried\(([\d_]+)\);$/m)],
]);

test("README.md has at most 130 lines and 900 words", () => {
  const text = textOf("README.md");
  const sizes = { lines: text.split("\n").length - 1, words: text.split(/\s+/).filter(Boolean).length };
  assert.ok(sizes.lines <= 130 && sizes.words <= 900, JSON.stringify(sizes));
});

test("each count of the documents is that of the repository", () => {
  const counts = DOCUMENTS.flatMap((path) => {
    const found = [...proseOf(path).replaceAll("\n", " ").matchAll(COUNT)];
    return found.map(([, number, what]) => ({ path, number, what }));
  });
  assert.ok(counts.length > 2);
  const wrong = counts.filter(({ number, what }) => COUNTED.get(what)?.() !== Number(number.replaceAll(",", "")));
  assert.deepEqual(wrong, []);
});
