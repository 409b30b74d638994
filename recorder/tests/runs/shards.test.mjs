// Seeds that are shared out among command lines, and their summaries, which are joined again.

import assert from "node:assert/strict";
import { spawnSync } from "node:child_process";
import { readFileSync, readdirSync, writeFileSync } from "node:fs";
import { join } from "node:path";
import { before, test } from "node:test";
import { fileURLToPath } from "node:url";
import { merged, partsOf } from "../../lib/command/merging.mjs";
import { commandOptionsOf } from "../../lib/command/options.mjs";
import { seedsWithout, shardOf, united } from "../../lib/seeds/ranges.mjs";
import { commandHere } from "../helpers/command-here.mjs";
import {
  RECORD, agentsIn, agentsPath, fileIn, moduleOf, nodeNow, nodeThere, refusedInALine, temporaryFolder,
} from "../helpers/common.mjs";
import { CHECKING, needing, withSignals } from "../helpers/needs.mjs";
import { pathOf } from "../helpers/programs.mjs";

const MERGE = fileURLToPath(new URL("../../merge.mjs", import.meta.url));
const known = (name) => fileURLToPath(new URL(`../known/${name}.mjs`, import.meta.url));

/** The summary of a command line as JSON. @param {string[]} words */
async function summaryOf(words) {
  const { stdout, stderr } = await commandHere([...words, "--format", "json"]);
  assert.equal(stderr, "");
  assert.match(stdout, /^[^\n]+\n$/);
  return JSON.parse(stdout);
}

test("each seed is in exactly one shard, and the sizes of shards differ by at most one", () => {
  const shards = (first, last, of) =>
    Array.from({ length: of }, (_, at) => shardOf({ first, last }, { number: at + 1, of }));
  assert.deepEqual(shards(1, 10, 4), [
    { first: 1, last: 3 }, { first: 4, last: 6 }, { first: 7, last: 8 }, { first: 9, last: 10 },
  ]);
  assert.deepEqual(shards(5, 7, 3), [{ first: 5, last: 5 }, { first: 6, last: 6 }, { first: 7, last: 7 }]);
  assert.deepEqual(shards(0, Number.MAX_SAFE_INTEGER, 2), [
    { first: 0, last: 2 ** 52 - 1 }, { first: 2 ** 52, last: 2 ** 53 - 1 },
  ]);
  assert.deepEqual(united(shards(3, 99, 13)), [{ first: 3, last: 99 }]);
});

test("`united` joins ranges of seeds, and `seedsWithout` takes ranges away", () => {
  const [a, b, c] = [{ first: 1, last: 4 }, { first: 5, last: 6 }, { first: 9, last: 9 }];
  assert.deepEqual(united([c, a, b]), [{ first: 1, last: 6 }, c]);
  assert.deepEqual(seedsWithout([{ first: 1, last: 10 }], [b, c]), [a, { first: 7, last: 8 }, { first: 10, last: 10 }]);
  assert.deepEqual(seedsWithout([a, c], [{ first: 0, last: 20 }]), []);
});

test("`--shard` takes a number and a count, and refuses other words", () => {
  const { first, last, asked, shard } = commandOptionsOf(["m.mjs", "--seeds", "1..1000", "--shard", "2/4"]);
  assert.deepEqual([first, last, asked, shard], [251, 500, { first: 1, last: 1_000 }, { number: 2, of: 4 }]);
  assert.equal(commandOptionsOf(["m.mjs"]).shard, undefined);
  const refused = (words, why) =>
    assert.throws(() => commandOptionsOf(["m.mjs", ...words]), refusedInALine(why, words.join(" ")));
  for (const text of ["", "0/4", "5/4", "1/0", "1.5/4", "2", "1/2/3", "a/b", "1/99999999999999999999"]) {
    refused(["--shard", text], /^--shard must be K\/N, as 2\/4, with K from 1 to N, but is "/);
  }
  refused(["--seeds", "1..3", "--shard", "4/4"], /^--shard 4\/4: 3 seeds can't be shared out among 4 shards$/);
  refused(["--format", "yaml"], /^--format must be plain or json, but is "yaml"$/);
});

/** The summary of some shards, joined, and that of one run. @param {string[]} words @param {number} of */
async function bothWays(words, of) {
  const shards = Array.from({ length: of }, (_, at) => summaryOf([...words, "--shard", `${at + 1}/${of}`]));
  const [one, ...parts] = await Promise.all([summaryOf(words), ...shards]);
  return { one, joined: merged(parts.reverse().map((summary, at) => ({ name: `part ${at}`, summary }))) };
}

// The last one makes pilots, which take twice as many workers.
const MODULES = [
  ["some deadlock", 4, agentsPath("naive-mutex"),
    ["--seeds", "20..47", "--check", "7", "--agents", "3", "--everywhere"], ["deadlock", "finished"]],
  ["some race, and some fail", 3, known("ring-frees-first"),
    ["--seeds", "30..49", "--agents", "2", "--everywhere"], ["failed", "race", "finished"]],
  ["none fails", 2, agentsPath("three-state-mutex"), ["--seeds", "1..8", "--ordinary", "store"], ["finished"]],
];

for (const [what, of, module, words, endings] of MODULES) {
  test(`the summary of ${of} shards is that of one run: ${what}`, async () => {
    const { one, joined } = await bothWays([module, ...words, ...CHECKING], of);
    assert.deepEqual(joined, one);
    const found = [...one.endings.failing, ...one.endings.passing].map(({ ending }) => ending);
    assert.deepEqual(found, endings);
    assert.ok(one.sabsim.checked > 0);
  });
}

/** Files with the summaries of three shards, each with files of its own, and the words of all. */
const shared = { folder: temporaryFolder(), files: [], words: [] };

before(async () => {
  const { folder } = shared;
  const module = agentsIn(folder, `
    const words = new Int32Array(buffers[0]);
    Atomics.add(words, 0, 1);
    if (Math.random() < 0.2) Atomics.wait(words, 1, 0);
  `);
  shared.words = [module, "--agents", "1", "--buffers", "8", "--seeds", "1..30", "--check", "0"];
  shared.files = await Promise.all([1, 2, 3].map(async (number) => {
    const shard = [...shared.words, "--shard", `${number}/3`, "--out", join(folder, `found-${number}`)];
    return fileIn(folder, `${number}.json`, JSON.stringify(await summaryOf(shard)));
  }));
});

test("merge.mjs prints the summary of all shards, and names the folder of the first failing run", async () => {
  const { folder, files, words } = shared;
  const [plain, json, one] = await Promise.all([
    nodeThere([MERGE, ...files]), nodeThere([MERGE, "--format", "json", ...files]),
    nodeThere([RECORD, ...words, "--out", join(folder, "found")]),
  ]);
  assert.deepEqual([plain.status, plain.stderr, json.status, one.status], [1, "", 1, 1]);
  const [, seed] = /^first failing seed: (\d+), deadlock$/m.exec(one.stdout);
  const holder = Math.ceil(Number(seed) / 10);
  // On a slow machine one of them may stop before it has tried all shorter runs.
  const summary = (text) => text.replace(/^(not shortened: no shorter one was found), .*$/m, "$1");
  const inOne = one.stdout.replace(join(folder, "found"), join(folder, `found-${holder}`));
  assert.equal(summary(plain.stdout), summary(inOne));
  const { asked, seeds, kept } = JSON.parse(json.stdout);
  assert.deepEqual([asked.seeds, asked.shard, seeds], [[{ first: 1, last: 30 }], null, [{ first: 1, last: 30 }]]);
  assert.equal(kept.path, join(folder, `found-${holder}`));
  assert.deepEqual(readdirSync(kept.path).sort(), [...kept.files].sort());
});

test("merge.mjs reads several summaries from one file, and its own output again", async () => {
  const { files: [first, ...others] } = shared;
  const lines = others.map((file) => `${readFileSync(file, "utf8")}\n`).join("\n");
  const [all, two] = await Promise.all([
    nodeThere([MERGE, first, "-"], { input: lines }), nodeThere([MERGE, "-", "--format", "json"], { input: lines }),
  ]);
  assert.equal(two.status, 3);
  assert.equal(all.status, 1);
  const again = await nodeThere([MERGE, "-"], { input: `${readFileSync(first, "utf8")}\n${two.stdout}` });
  assert.deepEqual(again, all);
});

test("merge.mjs reports a missing or stopped shard with status 3", async () => {
  const { folder, files: [first, second, third] } = shared;
  const missing = await nodeThere([MERGE, third, first]);
  assert.deepEqual([missing.status, missing.stderr], [3, "merge: no summary has the seeds 11 to 20\n"]);
  assert.match(missing.stdout, /^no summary has the seeds 11 to 20\n.*20 runs/);
  const stopped = { why: "interrupted by SIGINT", wanted: 25 };
  const file = fileIn(folder, "stopped.json", JSON.stringify({ ...JSON.parse(readFileSync(second, "utf8")), stopped }));
  const { status, stdout } = await nodeThere([MERGE, first, file, third]);
  assert.equal(status, 3);
  assert.match(stdout, /^interrupted by SIGINT after 30 of 45 runs\n/);
});

test("merge.mjs refuses files that aren't summaries, or don't fit together, with one line", () => {
  const { folder, files: [first, second] } = shared;
  const summary = JSON.parse(readFileSync(second, "utf8"));
  const { asked } = summary;
  const write = (name, text) => fileIn(folder, name, text);
  const changed = (name, parts) => write(name, JSON.stringify({ ...summary, ...parts }));
  const other = { ...asked, module: "other.mjs", digest: "00" };
  const faults = [
    [[join(folder, "none.json")], /none\.json can't be read: ENOENT/],
    [[folder], /can't be read: EISDIR/],
    [[write("empty", "\n")], /empty has no summary: it is empty$/],
    [[write("text", "15 of 200 runs failed\n")], /^line 1 of .*text is no summary .*: it is no JSON$/],
    [[write("number", "5")], /it isn't what `record\.mjs --format json` writes$/],
    [[write("null", "null")], /it isn't what `record\.mjs --format json` writes$/],
    [[changed("form", { summary: 99 })], /it is of form 99, and this recorder writes and reads form 4$/],
    [[changed("runs", { runs: "5" })], /its member runs is missing, or isn't what it must be$/],
    [[changed("endings", { endings: { failing: [{ ending: "race", runs: 1 }], passing: [] } })],
      /its member endings\.failing\[0\]\.first is missing/],
    [[first, second, first], /1\.json and .*1\.json don't fit together: both have seed 1$/],
    [[first, changed("overlap", { seeds: [{ first: 10, last: 12 }] })], /don't fit together: both have seed 10$/],
    [[first, changed("module", { asked: other })], /they are of different modules, .*agents\.mjs and other\.mjs$/],
    [[first, changed("edited", { asked: { ...asked, digest: "00" } })], /the text of .*agents\.mjs isn't the same in /],
    [[first, changed("option", { asked: { ...asked, options: { ...asked.options, noBlock: [1] } } })],
      /don't fit together: --no-block is not given in the one and \[1\] in the other$/],
  ];
  for (const [files, why] of faults) {
    assert.throws(() => merged(files.flatMap(partsOf)), refusedInALine(why));
  }
});

test("merge.mjs reports wrong words and files with status 2, and prints its help with status 0", async () => {
  const { files: [first] } = shared;
  const faults = [
    [[], /^merge: the summaries' files are missing; --help shows more\n$/],
    [[first, "--wrong"], /^merge: Unknown option '--wrong'[^\n]*\n$/],
    [[first, "--format", "xml"], /^merge: --format must be plain or json, but is "xml"\n$/],
    [[first, first], /^merge: .* don't fit together: both have seed 1\n$/],
  ];
  const all = [["--help"], ...faults.map(([words]) => words)];
  const [help, ...refusals] = await Promise.all(all.map((words) => nodeThere([MERGE, ...words])));
  assert.equal(help.status, 0);
  assert.match(help.stdout, /^usage: node recorder\/merge\.mjs FILE\.\. /);
  refusals.forEach(({ status, stdout, stderr }, at) => {
    assert.deepEqual([status, stdout], [2, ""]);
    assert.match(stderr, faults[at][1]);
  });
});

test("merge.mjs ends with status 0 if no run of any shard failed", async (context) => {
  const folder = temporaryFolder(context);
  const module = agentsIn(folder, "Atomics.add(new Int32Array(buffers[0]), 0, 1);");
  const words = [module, "--agents", "2", "--buffers", "4", "--seeds", "1..4", "--check", "0", "--everywhere"];
  const lines = await Promise.all(["1/2", "2/2"].map((shard) => summaryOf([...words, "--shard", shard])));
  const input = lines.map((line) => JSON.stringify(line)).join("\n");
  const { status, stdout } = await nodeThere([MERGE, "-"], { input });
  assert.equal(status, 0);
  assert.match(stdout, /^4 runs: 4 finished\n/);
});

test("the JSON summary reports a job that died, in its member `problems`", withSignals, async (context) => {
  const module = agentsIn(temporaryFolder(context), `
    globalThis.seeds = (globalThis.seeds ?? 0) + 1;
    Atomics.add(new Int32Array(buffers[0]), 0, 1);
    if (globalThis.seeds === 9) process.kill(process.pid, "SIGKILL");
  `);
  const words = [module, "--agents", "1", "--buffers", "4", "--seeds", "1..9", "--check", "0", "--format", "json"];
  const { status, stdout, stderr } = await nodeThere([RECORD, ...words]);
  const { problems: [problem], stopped, runs } = JSON.parse(stdout);
  assert.match(problem, /^a job's process ended by itself \(SIGKILL\), and nothing is known of (the seeds|seed) \d/);
  assert.deepEqual([status, stderr], [3, `record: ${problem}\n`]);
  assert.deepEqual(stopped, { why: "stopped", wanted: 9 });
  assert.ok(runs < 9, stdout);
});

test("a shard whose job dies in its first run has a JSON summary for merging", withSignals, async (context) => {
  const module = agentsIn(temporaryFolder(context), `
    Atomics.add(new Int32Array(buffers[0]), 0, 1);
    if (process.env.RECORDER_TEST === "dies") process.kill(process.pid, "SIGKILL");
  `);
  const words = [module, "--agents", "1", "--buffers", "4", "--seeds", "1..4", "--check", "0", "--format", "json"];
  const env = { ...process.env, RECORDER_TEST: "dies" };
  const [died, other] = await Promise.all([
    nodeThere([RECORD, ...words, "--shard", "1/2"], { env }), nodeThere([RECORD, ...words, "--shard", "2/2"]),
  ]);
  const { problems: [problem], stopped, runs } = JSON.parse(died.stdout);
  assert.match(problem, /\(SIGKILL\), and nothing is known of the seeds 1 to 2$/);
  assert.deepEqual([died.status, died.stderr], [3, `record: ${problem}\n`]);
  assert.deepEqual([runs, stopped], [0, { why: "stopped", wanted: 2 }]);
  const { status, stdout, stderr } = await nodeThere([MERGE, "-"], { input: died.stdout + other.stdout });
  assert.deepEqual([status, stderr], [3, `merge: ${problem}\n`]);
  assert.match(stdout, /^stopped after 2 of 4 runs\n2 runs: 2 finished\n/);
});

test("a module that is refused when it is loaded has no summary", async (context) => {
  const module = moduleOf(context, "throw new Error('no agents');\nexport default () => {};\n");
  const words = [module, "--agents", "1", "--buffers", "4", "--format", "json"];
  const { status, stdout, stderr } = await nodeThere([RECORD, ...words]);
  assert.deepEqual([status, stdout], [2, ""]);
  assert.match(stderr, /^record: .*agents\.mjs can't be loaded: /);
});

const hasParallel = spawnSync("parallel", ["--version"]).status === 0;
const withParallel = needing("GNU parallel", hasParallel);

test("GNU parallel runs the shards, as docs/RECORDER.md shows it", withParallel, (context) => {
  const folder = temporaryFolder(context);
  const reference = readFileSync(fileURLToPath(new URL("../../../docs/RECORDER.md", import.meta.url)), "utf8");
  const [command] = /^ {4}seq 4 \| parallel [^]*?(?=\n\n)/m.exec(reference);
  const cwd = fileURLToPath(new URL("../../../", import.meta.url));
  const env = { ...process.env, PARALLEL_HOME: folder };
  const { status, stdout, stderr } = spawnSync("sh", ["-c", command], { cwd, env, encoding: "utf8" });
  assert.equal(status, 1, stderr);
  const words = [RECORD, pathOf("recorder/examples/mutex-naive.agents.mjs"), "--seeds", "1..200"];
  assert.equal(stdout, nodeNow(words).stdout);
});

test("each part of a file is named by its line", (context) => {
  const folder = temporaryFolder(context);
  writeFileSync(join(folder, "two"), '{"summary":4}\n{"summary":5}\n');
  assert.throws(() => partsOf(join(folder, "two")), /^Error: line 1 of .*two is no summary .*: its member asked is /);
});
