// The wrong programs of one edit each: each edit can be made, the pieces that they are made of are clean, and wrong
// ones are found.

import assert from "node:assert/strict";
import { readFileSync } from "node:fs";
import { test } from "node:test";
import { fileURLToPath, pathToFileURL } from "node:url";
import { EDITS, HIDDEN, RIGHT, STARVES, editedText, fileOf } from "../../bench/edits.mjs";
import { PIECES, counted } from "../../bench/wrong.mjs";
import { fileIn, temporaryFolder } from "../helpers/common.mjs";

const README = readFileSync(new URL("../../bench/README.md", import.meta.url), "utf8");
const AMOUNT = { seeds: 20, jobs: 1 };
const SIDE_BY_SIDE = 4;

/**
 * What a program with few runs is run with: no pilots are made, and no worker begins that isn't needed. That takes half
 * of the time.
 * @param {string} file
 */
async function withFewWorkers(file) {
  const { setup: { agents } } = await import(pathToFileURL(file).href);
  return { agents, everywhere: true };
}

/** Wrong programs that fail in many runs, by many kinds of mistakes. */
const OFTEN = [
  "ring-publish-first", "ring-plain-read", "condition-no-notify", "barrier-notify-first", "asymmetric-if",
  "queue-lock-by-store", "mutex-2-no-store", "stack-pops-by-store", "filter-greater", "philosophers-no-order",
];

const folder = temporaryFolder();

/** Writes a wrong program. @param {import("../../bench/edits.mjs").Edit} edit @returns {string} its file */
const written = (edit) => fileIn(folder, `${edit.name}.mjs`, editedText(edit));

/**
 * Counts the failures in the runs of programs, some programs at a time.
 * @param {[name: string, file: string][]} programs
 */
async function countedOf(programs) {
  const left = [...programs];
  /** @type {[string, import("../../bench/wrong.mjs").Counted][]} */
  const counts = [];
  const work = async () => {
    for (let next = left.shift(); next !== undefined; next = left.shift()) {
      counts.push([next[0], await counted(next[1], AMOUNT, await withFewWorkers(next[1]))]);
    }
  };
  await Promise.all(Array.from({ length: SIDE_BY_SIDE }, work));
  return counts;
}

test("there are 81 wrong programs, one that starves, and 6 that are right in spite of the edit", () => {
  const of = (/** @type {string} */ kind) => EDITS.filter((edit) => edit.kind === kind).length;
  assert.deepEqual([of(RIGHT), of(STARVES), of(HIDDEN), EDITS.length], [6, 1, 2, 88]);
  assert.equal(new Set(EDITS.map(({ name }) => name)).size, EDITS.length);
});

test("each piece is named in its first line as right, and has 25 to 60 lines", () => {
  assert.equal(PIECES.length, 27);
  for (const piece of PIECES) {
    const lines = readFileSync(fileOf(piece), "utf8").split("\n");
    assert.match(lines[0], /^\/\/ Right\b.{20,}\.$/, piece);
    assert.ok(lines.length > 25 && lines.length <= 61, `${piece} has ${lines.length - 1} lines`);
  }
});

test("each edit is made at exactly one place, and the module loads", async () => {
  for (const edit of EDITS) {
    const file = written(edit);
    assert.notEqual(readFileSync(file, "utf8"), readFileSync(fileOf(edit.piece), "utf8"), edit.name);
    assert.equal(typeof (await import(pathToFileURL(file).href)).default, "function", edit.name);
  }
});

test("an edit whose text occurs twice, or not at all, is refused", () => {
  for (const [from, times] of [["Atomics.load", 5], ["Atomics.xor", 0]]) {
    const edit = { name: "none", piece: "ticket-lock", kind: RIGHT, from: `${from}`, to: "" };
    assert.throws(() => editedText(edit), new RegExp(`occurs ${times === 0 ? 0 : "[2-9]"} times`));
  }
});

test("no run of a piece fails in 20 seeds", async () => {
  const counts = await countedOf(PIECES.map((piece) => [piece, fileURLToPath(fileOf(piece))]));
  assert.deepEqual(counts.filter(([, { failed }]) => failed > 0).map(([piece]) => piece), []);
  assert.deepEqual(counts.filter(([, { hidden }]) => hidden > 0).map(([piece]) => piece), []);
});

test("each lost wake-up that a timeout hides is reported in most of 20 seeds, and no run fails", async () => {
  const edits = EDITS.filter(({ kind }) => kind === HIDDEN);
  assert.deepEqual(edits.map(({ name }) => name), ["blocks-no-notify", "message-no-notify"]);
  for (const [name, { failed, hidden }] of await countedOf(edits.map((edit) => [edit.name, written(edit)]))) {
    assert.equal(failed, 0, name);
    assert.ok(hidden > 10, `${name} is reported in ${hidden} runs`);
  }
});

test("with `timeouts: never` these are deadlocks, and the pieces that wait with a timeout are clean", async () => {
  const never = async (/** @type {string} */ file) => ({ ...await withFewWorkers(file), timeouts: "never" });
  for (const edit of EDITS.filter(({ kind }) => kind === HIDDEN)) {
    const file = written(edit);
    const { endings } = await counted(file, AMOUNT, await never(file));
    assert.deepEqual([...endings.keys()], ["deadlock"], edit.name);
    assert.ok(endings.get("deadlock") > 10, edit.name);
  }
  for (const piece of PIECES.filter((name) => name.startsWith("mailbox-"))) {
    const file = fileURLToPath(fileOf(piece));
    assert.equal((await counted(file, AMOUNT, await never(file))).failed, 0, piece);
  }
});

test("wrong programs that fail in many runs are found in 20 seeds", async () => {
  const edits = EDITS.filter(({ name }) => OFTEN.includes(name));
  assert.equal(edits.length, OFTEN.length);
  const counts = await countedOf(edits.map((edit) => [edit.name, written(edit)]));
  assert.deepEqual(counts.filter(([, { failed }]) => failed === 0).map(([name]) => name), []);
});

test("README's tables have each wrong program and each piece, most wrong ones found and all pieces clean", () => {
  const section = README.split("\n## ").find((text) => text.startsWith("Wrong by one edit\n"));
  const rows = section.split("\n").filter((line) => line.startsWith("| ")).map((line) => line.slice(2).split(" | "));
  /** @param {string} name @param {number} column @returns {number} the number in the row of a program */
  const failing = (name, column) =>
    Number(rows.find(([first]) => first.split(", ").includes(name))?.[column].replace(" |", ""));
  const wrong = EDITS.filter(({ kind }) => kind !== RIGHT && kind !== STARVES);
  assert.ok(wrong.filter(({ name }) => failing(name, 2) > 0).length >= 74);
  for (const { name, kind } of EDITS) assert.ok(kind === RIGHT ? failing(name, 2) === 0 : failing(name, 2) >= 0, name);
  for (const piece of PIECES) assert.equal(failing(piece, 1), 0, piece);
});
