// Which files of runs are kept, and when, and what the recorder prints if it is stopped.

import assert from "node:assert/strict";
import { spawn, spawnSync } from "node:child_process";
import { existsSync, mkdirSync, readFileSync, readdirSync, symlinkSync, writeFileSync } from "node:fs";
import { join } from "node:path";
import { test } from "node:test";
import { NotKept, RunStore } from "../../lib/keeping/run-store.mjs";
import { RECORD, agentsPath, fileIn, nodeNow, refusedInALine, soon, temporaryFolder } from "../helpers/common.mjs";
import { CHECKING, onLinux, withLinks, withShell, withSignals } from "../helpers/needs.mjs";
import { endOf } from "../helpers/programs.mjs";

const run = (seed, parts) => ({ seed, script: `script ${seed}`, report: `report ${seed}`, ...parts });
const filesOf = (seed) => [`seed-${seed}.json`, `seed-${seed}.report`];

test("the run of the lowest seed is kept, and the files of a higher one go", (context) => {
  const folder = join(temporaryFolder(context), "made", "here");
  const keeper = new RunStore(folder);
  assert.deepEqual(readdirSync(folder), []);
  keeper.keepFirst(run(50, { trace: "trace 50" }));
  assert.deepEqual(readdirSync(folder).sort(), [...filesOf(50), "seed-50.trace.jsonl"]);
  keeper.keepFirst(run(70));
  assert.deepEqual(readdirSync(folder).sort(), [...filesOf(50), "seed-50.trace.jsonl"]);
  keeper.keepFirst(run(20));
  assert.deepEqual(readdirSync(folder).sort(), filesOf(20));
  assert.deepEqual(keeper.names, filesOf(20));
  assert.equal(readFileSync(join(folder, "seed-20.json"), "utf8"), "script 20");
  assert.equal(readFileSync(join(folder, "seed-20.report"), "utf8"), "report 20");
});

test("files that others have written stay", (context) => {
  const folder = temporaryFolder(context);
  const others = ["seed-30.svg", "seed-30.txt", "seed-90.json"];
  for (const name of others) writeFileSync(join(folder, name), "theirs");
  const keeper = new RunStore(folder);
  keeper.keepFirst(run(30));
  keeper.keepFirst(run(10));
  assert.deepEqual(readdirSync(folder).sort(), [...filesOf(10), ...others].sort());
  for (const name of others) assert.equal(readFileSync(join(folder, name), "utf8"), "theirs");
});

test("a run without a script has no file of one", (context) => {
  const folder = temporaryFolder(context);
  const keeper = new RunStore(folder);
  keeper.keepFirst({ seed: 3, trace: "the trace" });
  assert.deepEqual(readdirSync(folder), ["seed-3.trace.jsonl"]);
  // Of this one there is nothing to keep, so the other one stays.
  keeper.keepFirst({ seed: 2 });
  assert.deepEqual(readdirSync(folder), ["seed-3.trace.jsonl"]);
  keeper.keepFirst(run(1));
  assert.deepEqual(readdirSync(folder).sort(), filesOf(1));
});

test("a link that lies at a file's name isn't followed", withLinks, (context) => {
  const folder = temporaryFolder(context);
  const outside = fileIn(temporaryFolder(context), "outside", "as it was");
  for (const name of filesOf(5)) symlinkSync(outside, join(folder, name));
  // Names that a file may be written to first, if they could be known.
  for (const name of [`.seed-5.json.${process.pid}`, ".seed-5.json", "seed-5.json.tmp"]) {
    symlinkSync(outside, join(folder, name));
  }
  new RunStore(folder).keepFirst(run(5));
  assert.equal(readFileSync(outside, "utf8"), "as it was");
  assert.equal(readFileSync(join(folder, "seed-5.json"), "utf8"), "script 5");
});

test("the error about a file that can't be written names it, and the files that were kept", (context) => {
  const folder = temporaryFolder(context);
  const keeper = new RunStore(folder);
  keeper.keepFirst(run(9));
  mkdirSync(join(folder, "seed-4.report"));
  const why = /seed-4\.report can't be written: .*; kept there: seed-9\.json, seed-9\.report, seed-4\.json$/s;
  assert.throws(() => keeper.keepFirst(run(4)), { constructor: NotKept, message: why });
  assert.deepEqual(readdirSync(folder).sort(), ["seed-4.json", "seed-4.report", ...filesOf(9)]);
});

test("a folder that can't be made, or written to, is refused", onLinux, (context) => {
  const folder = temporaryFolder(context);
  writeFileSync(join(folder, "file"), "");
  for (const path of [join(folder, "file"), join(folder, "file", "below"), "/proc/self"]) {
    assert.throws(() => new RunStore(path), refusedInALine(/^--out .* can't be used: ./, path));
  }
});

/**
 * Starts the command line on agents that wait for ever under some seeds.
 * @param {string[]} words
 * @param {object} [options] of spawn
 */
function started(words, options) {
  const child = spawn(process.execPath, [RECORD, agentsPath("naive-mutex"), ...words], options);
  return { child, ended: endOf(child) };
}

test("--out is tried before anything runs", onLinux, () => {
  const words = [RECORD, agentsPath("cases"), "--agents", "1", "--buffers", "4", "--out", "/proc/self", "--", "prints"];
  const { status, stdout, stderr } = nodeNow(words);
  assert.deepEqual([status, stdout], [2, ""]);
  assert.match(stderr, /^record: --out \/proc\/self can't be used: [^\n]+\n$/);
});

for (const signal of ["SIGINT", "SIGTERM"]) {
  test(`${signal} ends the command after it has printed and kept what it found`, withSignals, async (context) => {
    const out = join(temporaryFolder(context), "out");
    const { child, ended } = started(["--seeds", "1..10000000", "--out", out, ...CHECKING]);
    const kept = () => existsSync(out) && readdirSync(out).some((name) => /^seed-\d+\.report$/.test(name));
    assert.ok(await soon(kept));
    child.kill(signal);
    const { stdout, stderr, signal: by } = await ended;
    assert.deepEqual([by, stderr], [signal, ""]);
    const [first, second] = stdout.split("\n");
    assert.match(first, new RegExp(`^interrupted by ${signal} after [\\d,]+ of 10,000,000 runs$`));
    assert.match(second, /^[\d,]+ of [\d,]+ runs failed: /);
    const [, seed] = /^first failing seed: (\d+), /m.exec(stdout);
    const files = readdirSync(out).sort();
    const endings = ["json", "report", "explained", "html", "svg"];
    for (const ending of endings) assert.ok(files.includes(`seed-${seed}.${ending}`), ending);
    assert.ok(files.every((name) => name.startsWith(`seed-${seed}.`)), files.join());
    const [, names] = /^kept in .*: (.*)$/m.exec(stdout);
    assert.deepEqual(names.split(", ").sort(), files);
  });
}

test("a file that can't be written ends the command with status 3", withShell, (context) => {
  const out = temporaryFolder(context);
  // No file may have more than 1,024 bytes: the script of this run has more.
  const words = [RECORD, agentsPath("naive-mutex"), "--check", "0", "--seeds", "1..400", "--out", out];
  const shell = ["-c", 'ulimit -f 1; exec "$@"', "sh", process.execPath, ...words];
  const { status, stdout, stderr } = spawnSync("sh", shell, { encoding: "utf8" });
  assert.equal(status, 3, stderr);
  assert.match(stdout, /^stopped after \d+ of 400 runs\n\d+ of \d+ runs failed: /);
  assert.match(stderr, /^record: .*seed-\d+\.json can't be written: EFBIG[^\n]*; kept there: nothing\n$/);
  assert.deepEqual(readdirSync(out), []);
});
