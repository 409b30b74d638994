// `sabsim/test` in a test suite: what node's runner says about a module of agents that fails, and of one that doesn't.

import assert from "node:assert/strict";
import {
  existsSync, mkdirSync, readFileSync, readdirSync, realpathSync, rmSync, symlinkSync, writeFileSync,
} from "node:fs";
import { join } from "node:path";
import { after, test } from "node:test";
import { fileURLToPath, pathToFileURL } from "node:url";
import { keptFolder } from "../../lib/suite/kept-folder.mjs";
import { assertAgents } from "../../testing.mjs";
import { WITHOUT_SABSIM, agentsPath, nodeNow, temporaryFolder } from "../helpers/common.mjs";
import { onLinux, withLinks } from "../helpers/needs.mjs";
import { suiteIn } from "../helpers/suites.mjs";

const HELPER = new URL("../../testing.mjs", import.meta.url).href;

/**
 * Runs a file of tests by node's own runner.
 * @param {import("node:test").TestContext} context
 * @param {string} code of the tests
 * @param {object} [env]
 * @param {string} [reporter]
 */
async function suite(context, code, env = {}, reporter = "spec") {
  // A suite works in this folder, and node knows its files by their own paths.
  const folder = realpathSync(temporaryFolder(context));
  writeFileSync(join(folder, "agents.mjs"), readFileSync(agentsPath("naive-mutex"), "utf8"));
  writeFileSync(join(folder, "lock.test.mjs"), `import { assertAgents, testAgents } from "${HELPER}";\n${code}\n`);
  return suiteIn(folder, "lock.test.mjs", { env, reporter });
}

/** @type {(() => void)[]} what is done after all tests */
const ends = [];
after(() => ends.forEach((end) => end()));

/**
 * A suite of several tests, which is run once, when the first of them asks for it.
 * @param {string} code
 * @param {string} [reporter]
 */
function suiteOnce(code, reporter) {
  /** @type {ReturnType<typeof suite> | undefined} */
  let running;
  return () => (running ??= suite({ after: (end) => ends.push(end) }, code, {}, reporter));
}

/**
 * Where the run of a test that names no folder is kept: each of the three tests has a folder of its own.
 * @param {string} temporary
 * @param {boolean} isShortened whether it is the one of the two tests of the lock that shortens
 */
function keptIn(temporary, isShortened) {
  const [own] = readdirSync(temporary);
  assert.match(own, /^sabsim-\d+$/);
  const tests = readdirSync(join(temporary, own));
  assert.deepEqual(tests.map((test) => test.split("-")[0]).sort(), ["agents.mjs", "agents.mjs", "ring"]);
  const ofLock = tests.filter((test) => test.startsWith("agents.mjs-")).map((test) => join(temporary, own, test));
  const found = ofLock.filter((test) => readdirSync(test).some((name) => name.includes("original")) === isShortened);
  assert.equal(found.length, 1);
  return found[0];
}

// All that can move are alike, before each call.
const ALIKE = 'module: "./agents.mjs", agents: 3, strategy: "uniform", everywhere: true';
const AGENTS = `testAgents("no wake-up is lost", { ${ALIKE}, seeds: "1..200", shorten: false });`;
const RING = fileURLToPath(new URL("../../examples/ring-frees-first.agents.mjs", import.meta.url));

/** Two tests are about options. */
const ofOptions = suiteOnce(`
  testAgents("fails", { ${ALIKE}, seeds: "29", out: "found", shorten: false });
  testAgents("passes", { ${ALIKE}, seeds: { first: 3, last: 12 }, jobs: 2 });
  testAgents("isn't checked", { ${ALIKE}, seeds: 2, sabsim: false });
  testAgents("wrong", { module: "./agents.mjs", seed: 1 });
  testAgents("none", { module: "./none.mjs" });
  testAgents("out", { module: "./agents.mjs", out: 5 });
  testAgents("right", { ${ALIKE}, seeds: 20 });
`, "tap");

/** Three tests are about what a failing test shows. */
const ofFailing = suiteOnce(`${AGENTS}
  testAgents("shorter", { ${ALIKE}, seeds: "29" });
  testAgents("ring", { module: "${RING}", agents: 2, everywhere: true, seeds: "3", shorten: false });
`);

/** The files of the failing run, of which it is kept without its original. */
const FILES = ["json", "report", "trace.jsonl", "explained", "svg", "html"].map((ending) => `seed-29.${ending}`);

test("a failing test shows seed, ending, its explained end, and where its files lie", async () => {
  const { folder, temporary, output, status } = await ofFailing();
  assert.equal(status, 1);
  const place = keptIn(temporary, false);
  assert.deepEqual(readdirSync(place).sort(), FILES.toSorted());
  const explained = readFileSync(join(place, "seed-29.explained"), "utf8").split("\n");
  const shown = explained.slice(explained.findIndex((line) => line.startsWith("block ")), -1);
  // The failure as the reporter shows it, without the indentation that it gives.
  const lines = output.split("\n").map((line) => line.replace(/^ {2}/, ""));
  const from = lines.indexOf("RunFailed: seed 29: deadlock; the 28 runs before it passed");
  assert.notEqual(from, -1, output);
  assert.deepEqual(lines.slice(from + 1, from + 4), [
    '  agent 0 waits at byte 4 of block 0: its call 19, ["wait", "Int32", 1, 0], at agents.mjs:12:60', "",
    "Its last acts, as sabsim explains them (the move, the agent, how many of its calls had returned), "
      + "and their lines:",
  ]);
  const end = lines.indexOf("", from + 4);
  assert.deepEqual(lines.slice(end - shown.length, end), shown.map((line) => `  ${line}`));
  const last = lines[end - shown.length - 1];
  const wait = "wait\\(Int32, 1, 0\\) waits at Int32\\[1\\], first in line, at agents\\.mjs:12:60";
  assert.match(last, new RegExp(`^ {2}173 0 19 wait +${wait}$`));
  assert.equal(end - shown.length - (from + 4), 16);
  assert.deepEqual(lines.slice(end, end + 4), [
    "", `kept in ${place}: ${FILES.join(", ")}`, "", `    at ${pathToFileURL(join(folder, "lock.test.mjs")).href}:2:1`,
  ]);
  assert.ok(!output.includes("generatedMessage"));
});

test("a failing run is kept where `out` says, and a passing test says how many runs were checked", async () => {
  const { folder, output, status, temporary } = await ofOptions();
  assert.equal(status, 1);
  assert.match(output, /^not ok 1 - fails$/m);
  assert.match(output, /^ +seed 29: deadlock\n +agent 0 waits at byte 4 of block 0: its call 19, /m);
  assert.ok(output.includes(`kept in ${join(folder, "found")}: ${FILES.join(", ")}`), output);
  assert.deepEqual(readdirSync(join(folder, "found")).sort(), FILES.toSorted());
  assert.match(output, /^ok 2 - passes$/m);
  assert.match(output, /^# 10 runs passed, 10 checked by the simulator$/m);
  assert.match(output, /^# 2 runs passed, none checked: the options say that sabsim isn't asked$/m);
  assert.deepEqual(readdirSync(temporary), []);
});

test("a chosen program that isn't there fails the test", async (the) => {
  const { output, status } = await suite(the, AGENTS, WITHOUT_SABSIM, "tap");
  assert.equal(status, 1);
  assert.match(output, /there is no program sabsim at \/nowhere\/sabsim/);
});

test("the shortest run that fails so is shown and kept, with the original beside it", async () => {
  const { temporary, output, status } = await ofFailing();
  assert.equal(status, 1);
  const waits = /^ +agent 0 waits at byte 4 of block 0: its call 1, \["wait", "Int32", 1, 0\], at agents\.mjs:12:60$/m;
  assert.match(output, waits);
  const place = keptIn(temporary, true);
  const originals = ["json", "report", "trace.jsonl"].map((ending) => `seed-29.original.${ending}`);
  assert.deepEqual(readdirSync(place).sort(), [...FILES, ...originals].sort());
  const callsOf = (name) => JSON.parse(readFileSync(join(place, name), "utf8")).agents.flatMap(({ calls }) => calls);
  assert.ok(callsOf("seed-29.json").length < callsOf("seed-29.original.json").length);
});

test("options that can't be fail their test, and others go on", async () => {
  const { output, temporary } = await ofOptions();
  for (const why of ["there is no option `seed`: is seeds meant?", "`out` must be the path of a folder"]) {
    assert.ok(output.includes(why), output);
  }
  assert.match(output, /error: .*there is no file .*none\.mjs/);
  // Each has the line of its own test, and none of the recorder's.
  for (const line of [6, 7, 8]) assert.match(output, new RegExp(`^ +file://.*lock\\.test\\.mjs:${line}:3$`, "m"));
  const lines = output.split("\n").filter((line) => !line.includes("location:"));
  assert.deepEqual(lines.filter((line) => line.includes("/recorder/lib/")), []);
  assert.match(output, /^ok 7 - right$/m);
  assert.match(output, /^# 20 runs passed, 20 checked by the simulator$/m);
  // Besides these three the one that is kept.
  assert.match(output, /^# fail 4$/m);
  assert.deepEqual(readdirSync(temporary), []);
});

test("the failing test of a race marks its two accesses among the last acts, with their lines", async () => {
  const { output } = await ofFailing();
  const lines = output.split("\n").map((line) => line.trim());
  assert.ok(lines.some((line) => line.endsWith("and their lines; > marks two accesses that nothing orders:")));
  // The reporter shows a failure twice.
  const [read, write, ...more] = new Set(lines.filter((line) => line.startsWith("> ")));
  assert.match(read,
    /^> - 1 \d+ read +reads slots\[0\], which is 10, without Atomics, at ring-frees-first\.mjs:43:17$/);
  assert.match(write, /^> \d+ 0 \d+ write +writes slots\[0\], without Atomics: .*, at ring-frees-first\.mjs:31:32$/);
  assert.deepEqual(more, []);
  const load = /^\d+ \d \d+ act .* load\(TAIL, 0\) .*, at ring-frees-first\.mjs:\d+:\d+$/;
  assert.ok(lines.some((line) => load.test(line)), output);
});

test("a test's failing run is kept in the same folder each time, which no link leads out of", withLinks, (the) => {
  const { TMPDIR } = process.env;
  process.env.TMPDIR = temporaryFolder(the);
  the.after(() => {
    if (TMPDIR === undefined) delete process.env.TMPDIR;
    else process.env.TMPDIR = TMPDIR;
  });
  const module = "file:///home/me/lock%20agents.mjs?one";
  const folder = keptFolder(module, "one");
  assert.match(folder, /[\\/]sabsim--?\d+[\\/]lock_20agents\.mjs-[0-9a-f]{12}$/);
  mkdirSync(folder);
  writeFileSync(join(folder, "seed-1.json"), "{}");
  assert.equal(keptFolder(module, "one"), folder);
  assert.ok(!existsSync(folder));
  assert.notEqual(keptFolder(module, "two"), folder);
  assert.notEqual(keptFolder("file:///home/me/lock.mjs", "one"), folder);
  const own = join(folder, "..");
  rmSync(own, { recursive: true });
  symlinkSync(temporaryFolder(the), own);
  assert.throws(() => keptFolder(module, "one"), /isn't a folder of this user: `out` can name another one$/);
});

test("assertAgents fails with RunFailed, in any test", onLinux, async (the) => {
  const out = join(temporaryFolder(the), "out");
  const options = { module: "../agents/cases.mjs", agents: 2, buffers: [12], everywhere: true, sabsim: false, out };
  await assertAgents({ ...options, args: ["addition"], seeds: 5 });
  assert.ok(!existsSync(out));
  await assert.rejects(assertAgents({ ...options, args: ["waitsForEver"], seeds: "4..9" }), (error) => {
    // jest shows two values that differ if an error says that it is an AssertionError.
    assert.ok(error instanceof Error && !(error instanceof assert.AssertionError));
    assert.deepEqual([error.name, error.code, Object.keys(error)], ["RunFailed", undefined, []]);
    assert.match(error.message, /^seed 4: deadlock\n {2}agent \d waits at /);
    assert.match(error.stack, /\n {4}at file:\/\/.*testing\.test\.mjs:\d+:\d+$/);
    return true;
  });
  assert.ok(existsSync(join(out, "seed-4.json")));
  // A run that can't be kept is reported all the same.
  const nowhere = { ...options, args: ["waitsForEver"], seeds: "4", out: "/proc/self" };
  const message = /: seed 4: deadlock\n.*\n\nIts last acts, [^]*\n\nnot kept: `out` \/proc\/self can't be used: /;
  await assert.rejects(assertAgents(nowhere), message);
});

test("node:test is loaded only when a test of it is asked for", () => {
  const forms = [
    ["mjs", `import { assertAgents, testAgents } from "${HELPER}";`],
    ["cjs", `import { createRequire } from "node:module";
      const { assertAgents, testAgents } = createRequire("${HELPER}")("./testing.cjs");`],
  ];
  for (const [name, line] of forms) {
    const code = `${line}
      const isLoaded = () => process.moduleLoadList.some((name) => name.includes("test_runner"));
      await assertAgents({ module: "${HELPER}/none.mjs" }).catch(() => {});
      const before = isLoaded();
      testAgents("a test", {});
      console.log(before, isLoaded());
      process.exit();`;
    const { stdout, stderr } = nodeNow(["--input-type=module", "-e", code]);
    assert.deepEqual([stdout, stderr], ["false true\n", ""], name);
  }
});
