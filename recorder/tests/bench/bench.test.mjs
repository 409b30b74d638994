// The benchmarks of strategies, of checks and of speed by turns: they run, and the programs of the first are wrong.

import assert from "node:assert/strict";
import { spawnSync } from "node:child_process";
import { readFileSync, symlinkSync } from "node:fs";
import { join } from "node:path";
import { test } from "node:test";
import { fileURLToPath } from "node:url";
import { printTable } from "../../bench/checks.mjs";
import { COLUMNS, PROGRAMS, measured, tables } from "../../bench/strategies.mjs";
import { median, ratioOf, rowOf, sumOf } from "../../bench/turns.mjs";
import { nodeNow, temporaryFolder } from "../helpers/common.mjs";
import { needing, withLinks } from "../helpers/needs.mjs";

const README = readFileSync(new URL("../../bench/README.md", import.meta.url), "utf8");

test("a table has a row for each program, and a column for each strategy", async () => {
  // Of two agents each, since each agent costs two workers in each column.
  const text = await tables(["lost-wake-up", "peterson-turn-first"], { seeds: 5, jobs: 1 });
  const lines = text.split("\n").filter((line) => line.startsWith("| lost-wake-up") || line.startsWith("| peterson"));
  assert.equal(lines.length, 6);
  for (const line of lines) assert.equal(line.split(" | ").length, COLUMNS.length + 1);
  // Five runs are counted as of 1,000.
  const [, ...cells] = lines[0].slice(2, -2).split(" | ").map(Number);
  for (const cell of cells) assert.ok(cell % 200 === 0 && cell <= 1_000, lines[0]);
});

test("three exact switches among 200 calls are found by mixed runs within 200 seeds", async () => {
  const { runs, failed, first } = await measured("three-exact-switches", {}, { seeds: 200, jobs: 1 });
  assert.equal(runs, 200);
  assert.ok(failed > 0 && first <= 200);
});

test("README's table has each program, and says that mixed runs find each of them", () => {
  const lines = README.split("\n").filter((line) => /^\| [a-z-]+ \|/.test(line));
  const rows = lines.map((line) => line.slice(2).split(" | "));
  for (const name of PROGRAMS) {
    const [, mixed] = rows.find(([program]) => program === name) ?? assert.fail(`${name} isn't in README`);
    assert.ok(Number(mixed) > 0, name);
  }
  assert.ok(PROGRAMS.length >= 15);
});

test("each program says in its first line what is wrong", () => {
  for (const name of PROGRAMS) {
    const [first] = readFileSync(new URL(`../../bench/programs/${name}.mjs`, import.meta.url), "utf8").split("\n");
    assert.match(first, /^\/\/ Wrong: .{20,}$/, name);
  }
});

test("the cost of the checks has a row for each program and number of jobs", async () => {
  /** @type {string[]} */
  const lines = [];
  const module = fileURLToPath(new URL("../../examples/ring.agents.mjs", import.meta.url));
  await printTable([module], [1, 2], { turns: 1, each: 8, warm: 8 }, (line) => lines.push(line));
  assert.equal(lines.length, 4);
  for (const jobs of [1, 2]) {
    const ring = String.raw`\`examples/ring\.agents\.mjs\``;
    const row = new RegExp(String.raw`^\| ${ring} \| ${jobs} \| [\d,]+ \| [\d,]+ \| \d+\.\d\d \|$`);
    assert.match(lines[jobs + 1], row);
  }
});

test("the ratio of two commits is the median of the turns' ratios, and the turns give its spread", () => {
  const pool = { before: [4, 2, 9], now: [5, 3, 9] };
  assert.equal(median([9, 2, 4]), 4);
  assert.equal(median([1, 2, 4, 9]), 3);
  assert.equal(ratioOf(pool), 1.25);
  // The medians of both sides would say 1.5.
  assert.equal(ratioOf({ before: [1, 4, 10], now: [1, 6, 10] }), 1);
  assert.equal(rowOf("pool", pool), "| pool | 4.00 | 5.00 | 1.250 | 1.00 to 1.50 |");
  assert.deepEqual(sumOf([pool, { before: [1, 2, 3], now: [3, 2, 1] }]), { before: [5, 4, 12], now: [8, 5, 10] });
});

const ROOT = fileURLToPath(new URL("../../../", import.meta.url));
const TURNS = join(ROOT, "recorder/bench/turns.mjs");
/** git works only for the owner of a clone. */
const inClone = needing("clone of the repository", spawnSync("git", ["rev-parse", "HEAD"], { cwd: ROOT }).status === 0);

/** What `turns.mjs` prints. @param {string[]} words */
const turns = (...words) => nodeNow([TURNS, ...words]);

test("both recorders make the runs of a module and of a program, by turns", inClone, () => {
  const { status, stdout, stderr } = turns("HEAD", "mutex-naive", "pool", "--turns", "1", "--seeds", "2");
  assert.equal(status, 0, stderr);
  const rows = stdout.split("\n").slice(2, -1);
  assert.deepEqual(rows.map((row) => row.split(" ")[1]), ["mutex-naive", "pool", "all"]);
  for (const row of rows) {
    assert.match(row, /^\| [a-z-]+ \| \d+\.\d\d \| \d+\.\d\d \| \d+\.\d{3} \| \d+\.\d\d to \d+\.\d\d \|$/);
  }
});

test("right programs pass, and what isn't right is refused", () => {
  const right = fileURLToPath(new URL("../../bench/right.mjs", import.meta.url));
  const run = (/** @type {string[]} */ ...words) =>
    nodeNow([right, ...words]);
  const { status, stdout } = run("--seeds", "3", "--only", "once,exits/r");
  const lines = ["exits/right", "once/right", "once/reads-between"].map((name) => `${name}: 0 of 3 failed\n`);
  assert.deepEqual([status, stdout], [0, lines.join("")]);
  assert.equal(run("--seeds", "0").status, 2);
});

test("a program that isn't there, a commit that isn't named and numbers that are none are errors", () => {
  assert.match(turns("HEAD", "pol").stderr, /there is no program pol: it is one of mutex-naive, bounded-queue, /);
  assert.match(turns().stderr, /name a commit, such as HEAD/);
  for (const option of ["turns", "seeds"]) {
    assert.match(turns("HEAD", `--${option}`, "many").stderr, /^turns: --turns and --seeds are 1 at least$/m);
  }
});

test("a benchmark is run by a link to its file, too", withLinks, (context) => {
  const link = join(temporaryFolder(context), "turns.mjs");
  symlinkSync(TURNS, link);
  assert.match(nodeNow([link]).stderr, /name a commit, such as HEAD/);
});
