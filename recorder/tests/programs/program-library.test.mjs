// Whole programs by the library and by `sabsim/test`: the same runs as those of the command line.

import assert from "node:assert/strict";
import { readFileSync, readdirSync, realpathSync, writeFileSync } from "node:fs";
import { dirname, join } from "node:path";
import { test } from "node:test";
import { fileURLToPath, pathToFileURL } from "node:url";
import { Refused, explore, record } from "../../recorder.mjs";
import { assertProgram } from "../../testing.mjs";
import { commandHere } from "../helpers/command-here.mjs";
import { agentsPath, temporaryFolder } from "../helpers/common.mjs";
import { suiteIn } from "../helpers/suites.mjs";

/** @param {string} main of a program with a known answer */
const knownProgram = (main) => fileURLToPath(new URL(`../programs/${main}`, import.meta.url));

const TOO_SOON = knownProgram("hand-over/too-soon.mjs");
const HELPER = new URL("../../testing.mjs", import.meta.url).href;
const LIBRARY = new URL("../../recorder.mjs", import.meta.url).href;

/** @param {RegExp} why */
const refused = (why) => (/** @type {unknown} */ error) => error instanceof Refused && why.test(error.message);

/** The parts by which outcomes are compared. */
const part = ({ seed, ending, fails, detail, moves, calls, ordinary, progress, state, script, report, trace, races,
  checked }) =>
  ({ seed, ending, fails, detail, moves, calls, ordinary, progress, state, script, report, trace, races, checked });

test("`explore` makes the runs of the command line, by any number of jobs, `record` each alone", async (context) => {
  const found = join(temporaryFolder(context), "found");
  const words = ["--program", TOO_SOON, "--seeds", "1..6", "--format", "json", "--no-shorten", "--out", found];
  const { stdout } = await commandHere(words);
  const summary = JSON.parse(stdout);
  const options = { program: TOO_SOON, seeds: "1..6", trace: true };
  const outcomes = [];
  for await (const outcome of explore(options)) outcomes.push(outcome);
  const failing = outcomes.filter(({ fails }) => fails);
  assert.deepEqual([outcomes.length, failing.length], [6, summary.failed]);
  assert.ok(failing.length > 0);
  const [{ seed, script, trace, report, detail }] = failing;
  const kept = (ending) => readFileSync(join(found, `seed-${seed}.${ending}`), "utf8");
  assert.deepEqual([script, trace, report], [kept("json"), kept("trace.jsonl"), kept("report")]);
  assert.deepEqual(detail.split("\n"), summary.firstFailing.detail);
  const ofTwoJobs = [];
  for await (const outcome of explore({ ...options, jobs: 2 })) ofTwoJobs.push(outcome);
  assert.deepEqual(ofTwoJobs.map(part), outcomes.map(part));
  assert.deepEqual(part(await record({ program: pathToFileURL(TOO_SOON), seed, trace: true })), part(failing[0]));
});

test("the program gets its arguments, and a path is taken from the file that asks", async (context) => {
  const folder = temporaryFolder(context);
  writeFileSync(join(folder, "main.mjs"),
    "process.exitCode = process.argv.length === 4 ? Number(process.argv[3]) : 1;\n");
  writeFileSync(join(folder, "asks.mjs"), `import { record } from "${LIBRARY}";
    export const asked = (...args) => record({ program: "./main.mjs", args });\n`);
  const { asked } = await import(pathToFileURL(join(folder, "asks.mjs")).href);
  assert.deepEqual((await asked("any", "0")).ending, "finished");
  assert.deepEqual((await asked("any", "9")).detail, "agent 0 exited with code 9");
});

test("a failing run of a program is shortened", async () => {
  const seed = 4;
  const program = knownProgram("lock-order/crossed.mjs");
  for await (const { fails, seed: failing } of explore({ program, seeds: { first: seed, last: 60 } })) {
    if (!fails) continue;
    const { original, shortened, ending, row } = await record({ program, seed: failing, shorten: true });
    assert.equal(ending, "deadlock");
    assert.ok(shortened.unchanged !== undefined || shortened.changes.after < shortened.changes.before);
    if (original !== undefined) {
      assert.deepEqual([original.seed, original.ending, row.length > 0], [failing, "deadlock", true]);
    }
    return;
  }
  assert.fail("no seed fails");
});

test("a program that is stuck fails, unless `stuck` lets it pass", async () => {
  const program = knownProgram("stuck/server.mjs");
  const [fails, passes] = [await record({ program }), await record({ program, stuck: "allow" })];
  assert.deepEqual([fails.ending, fails.fails, passes.ending, passes.fails], ["stuck", true, "stuck", false]);
});

test("just one of module and program is given, and each has its own options", async () => {
  const module = agentsPath("cases");
  const both = new RegExp("^`module` and `program` can't both be given: "
    + "`module` is one of agents, and `program` starts its threads itself$");
  assert.throws(() => explore({ module, program: TOO_SOON }), refused(both));
  await assert.rejects(record({ module, program: TOO_SOON }), refused(both));
  const none = /^`module` is missing, or `program` in its place: it must be a path or a URL$/;
  assert.throws(() => explore({}), refused(none));
  await assert.rejects(record({ seed: 1 }), refused(none));
  for (const program of [5, "", null]) {
    await assert.rejects(record({ program }), refused(/^`program` must be a path or a URL/));
  }
  const ofAgents = { agents: 2, buffers: [4], noBlock: [0], unrecorded: "allow", init() {}, check() {} };
  for (const [name, value] of Object.entries(ofAgents)) {
    const why = new RegExp(`^\`${name}\` doesn't go with \`program\`: it is about a module of agents, `);
    await assert.rejects(record({ program: TOO_SOON, [name]: value }), refused(why));
  }
  for (const [name, value] of Object.entries({ ordinary: "store", clock: "real" })) {
    const why = new RegExp(`^\`${name}\` doesn't go with \`program\`: it isn't there for programs yet$`);
    await assert.rejects(record({ program: TOO_SOON, [name]: value }), refused(why));
  }
  await assert.rejects(record({ program: TOO_SOON, timeouts: "never" }),
    refused(/^`timeouts` never doesn't go with `program`/));
  await assert.rejects(record({ module, stuck: "allow" }),
    refused(/^`stuck` needs `program`: only programs can be stuck$/));
  const missing = { program: pathToFileURL(join(dirname(TOO_SOON), "none.mjs")) };
  await assert.rejects(record(missing), refused(/^there is no file .*none\.mjs$/));
});

/**
 * Runs a file of tests by node's own runner, beside a program.
 * @param {import("node:test").TestContext} context
 * @param {string} code of the tests
 */
async function suite(context, code) {
  // A suite works in this folder, and node knows its files by their own paths.
  const folder = realpathSync(temporaryFolder(context));
  for (const name of readdirSync(dirname(TOO_SOON))) {
    writeFileSync(join(folder, name), readFileSync(join(dirname(TOO_SOON), name), "utf8"));
  }
  writeFileSync(join(folder, "main.test.mjs"),
    `import { assertProgram, testAgents, testProgram } from "${HELPER}";\n${code}\n`);
  return suiteIn(folder, "main.test.mjs", { reporter: "tap" });
}

test("`testProgram` fails with the finding, shortened and kept, and passes otherwise", async (context) => {
  const { folder, output, status, temporary } = await suite(context, `
    testProgram("hands over", { program: "./too-soon.mjs", seeds: "1..40", out: "found" });
    testProgram("is right", { program: new URL("./right.mjs", import.meta.url), seeds: 5, jobs: 1 });
    testProgram("has agents", { module: "./right.mjs", program: "./right.mjs" });
    testProgram("names no folder", { program: "./waits-elsewhere.mjs", seeds: "1..60", shorten: false });
  `);
  assert.equal(status, 1);
  assert.match(output, /^not ok 1 - hands over$/m);
  assert.match(output, new RegExp("^ +seed \\d+: race(; the (?:run|\\d+ runs) before it passed)?\\n"
    + " +agent 1 \\(too-soon-worker\\.mjs, started at too-soon\\.mjs:7:1\\) writes Uint8_b0_at4\\[4\\] "
    + "\\(too-soon\\.mjs:4\\) at too-soon-worker\\.mjs:7:12", "m"));
  assert.match(output, /^ +> .* write +writes .*, at too-soon-worker\.mjs:7:12$/m);
  const names = readdirSync(join(folder, "found"));
  for (const ending of ["json", "trace.jsonl", "explained", "html"]) {
    assert.ok(names.some((name) => name.endsWith(`.${ending}`)), `${names} have no ${ending}`);
  }
  assert.ok(output.includes(`kept in ${join(folder, "found")}: seed-`), output);
  const file = pathToFileURL(join(folder, "main.test.mjs")).href;
  assert.ok(output.split("\n").some((line) => line.trim() === `${file}:3:5`), output);
  assert.match(output, /^ok 2 - is right$/m);
  assert.match(output, /^# 5 runs passed, 5 checked by the simulator$/m);
  assert.match(output, /^not ok 3 - has agents$/m);
  assert.ok(output.includes("`module` and `program` can't both be given"));
  assert.match(output, /^not ok 4 - names no folder$/m);
  const [own] = readdirSync(temporary);
  assert.match(readdirSync(join(temporary, own))[0], /^waits-elsewhere\.mjs-[0-9a-f]{12}$/);
});

test("`assertProgram` is a part of any test: it fails with RunFailed if a run fails", async (context) => {
  await assertProgram({ program: knownProgram("hand-over/right.mjs"), seeds: 3 });
  const out = temporaryFolder(context);
  await assert.rejects(assertProgram({ program: TOO_SOON, seeds: "1..40", shorten: false, out }), (error) =>
    error.name === "RunFailed" && /^seed \d+: race/.test(error.message));
});
