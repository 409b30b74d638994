// The commands of README.md, CONTRIBUTING.md, recorder/README.md and docs/RECORDER.md. Each is run in a copy of the
// repository, and prints what the document shows below it. If one is never run, the reason or another test is named
// here.

import assert from "node:assert/strict";
import { spawnSync } from "node:child_process";
import {
  cpSync, mkdirSync, mkdtempSync, readFileSync, readdirSync, rmSync, symlinkSync, writeFileSync,
} from "node:fs";
import { tmpdir } from "node:os";
import { join, relative } from "node:path";
import { after, test } from "node:test";
import { SABSIM, needing, withSabsim } from "../../recorder/tests/helpers/needs.mjs";
import { TOP, isLeftOut, spansOf, textOf } from "./documents.mjs";

const built = { isBuilt: true, when: withSabsim };

const hasKit = spawnSync("rt", ["version"]).status === 0;
const withKit = { when: { ...needing("rt", hasKit), timeout: 600_000 } };

const PROVES = { notRun: "a proof takes minutes, and ./check proves each crate" };
const RUNS_THIS = { notRun: "it runs this test" };
const INSTALLS = "tests/install/install.test.mjs";

/**
 * @typedef {object} Trial how a command is tried
 * @property {number} [status] the status that it ends with
 * @property {boolean} [isBuilt] whether the program is there
 * @property {object} [when] what it needs
 * @property {string} [by] another test that runs it
 * @property {string} [words] what that test has
 * @property {string} [notRun] why it is never run here
 */

/**
 * How each command is tried, in the order in which they are run.
 * @type {[string, Trial][]}
 */
const COMMANDS = [
  ["node recorder/record.mjs recorder/examples/mutex-naive.agents.mjs --seeds 1..200 --out found", { status: 1 }],
  ["node recorder/record.mjs recorder/examples/mutex-three-state.agents.mjs --all", { status: 0 }],
  ["node recorder/record.mjs recorder/examples/late-notify.agents.mjs --all", { status: 1 }],
  ["node recorder/record.mjs recorder/examples/late-notify-mended.agents.mjs --all", { status: 0 }],
  ["node recorder/record.mjs recorder/examples/sequence-queue.object.mjs --all --agents 2 --each 2", { status: 1 }],
  ["node recorder/record.mjs counter.agents.mjs --seeds 1..50", { status: 1 }],
  ["node recorder/sabsim.mjs replay --format explained --acts found/seed-13.json", { status: 0 }],
  ["node recorder/sabsim.mjs replay --format explained --acts script.json", { status: 0 }],
  ["node recorder/record.mjs counter.agents.mjs --replay script.json --out found", { status: 1 }],
  ["npm pack", { by: INSTALLS, words: '"npm", ["pack",' }],
  ["npm install ./sabsim-0.2.0.tgz",
    { by: "tests/install/installed.mjs", words: '"--no-fund", `./sabsim-${version}.tgz`' }],
  ["node --test", { by: INSTALLS, words: '"node", ["--test", "--test-reporter=tap", "readme.mjs"]' }],
  ["npx sabsim-record --program some.test.mjs",
    { notRun: "recorder/tests/programs/program-node-test.test.mjs runs such files" }],
  ["npm test", { notRun: "tests/recorder runs these tests" }],
  ["npm test -- --all", { notRun: "tests/recorder runs the same tests" }],
  ["npm test -- nearest strategy", { status: 0 }],
  ["npm test -- --unit", { notRun: "npm test runs these tests, and refuses them threads and processes" }],
  ["npm test -- fuzz/", { notRun: "tests/recorder runs these tests" }],
  ["npm test -- bench/", { notRun: "tests/recorder runs these tests" }],
  ["node tests/objects/compare.mjs 1 300", { notRun: "it takes an hour, and objects.test.mjs compares some of them" }],
  ["SEEDS=1000 npm test -- known", { notRun: "npm test runs the same with fewer seeds, and this takes minutes" }],
  ["SABSIM=crates/sabsim/out/sabsim npm test", { notRun: "tests/recorder does the same" }],
  ["npm run published", { notRun: "most of the programs have to be fetched first" }],
  ["node recorder/record.mjs recorder/examples/mutex-naive.agents.mjs --seeds 1..200", { status: 1 }],
  ["node recorder/record.mjs recorder/examples/ring-frees-first.agents.mjs --seeds 1..200", { status: 1 }],
  ["node recorder/record.mjs recorder/examples/ring-frees-first.agents.mjs --seeds 1..200 --out found", { status: 1 }],
  ["node recorder/sabsim.mjs judge --trace found/seed-3.trace.jsonl", { status: 5 }],
  ["node --test recorder/tests/unit/nearest.test.mjs", { status: 0 }],
  ["SABSIM=crates/sabsim/out/sabsim node --test recorder/tests/runs/traces.test.mjs", { status: 0, ...built }],
  ["node --test tests/docs/lines.test.mjs", { status: 0 }],
  ["node --test tests/docs/definitions.test.mjs", { status: 0 }],
  ["node tools/sections.mjs", { status: 0 }],
  ["cd crates/sab_object && rt check", PROVES],
  ["cd crates/sab_object && rt check --only take_off", PROVES],
  ["tools/edits sab_object", PROVES],
  ["tests/cases crates/sabsim/out/sabsim", { notRun: "./check runs it" }],
  ["tests/program crates/sabsim/out/sabsim --update", { notRun: "./check runs it, and compares what is printed" }],
  ["tools/release .", { by: "tests/docs/release.test.mjs", words: '"tools/release"), [folder]' }],
  ["rt doc", { status: 0, ...withKit }],
  ["rt fmt", { notRun: "it changes files, and tests/format runs it on a copy of the crates" }],
  ["rt version", { status: 0, ...withKit }],
  ["node recorder/bench/turns.mjs HEAD~1",
    { by: "recorder/tests/bench/bench.test.mjs", words: 'turns("HEAD", "mutex-naive", ' }],
  ["./build", { by: "tests/build", words: "building\n" }],
  ["./build --package", { by: "tests/build", words: "building --package --jobs 1\n" }],
  ["./check", RUNS_THIS],
  ["./check --quick", RUNS_THIS],
  ["./check --anew", RUNS_THIS],
];

/** How a command begins that is in backticks. */
const COMMAND = /^(?:\.\/(?:build|check)\b|[A-Z]+=|(?:cd|npm|npx|node|rt|(?:tools|tests)\/\w+|crates\/\S+\/sabsim) )/;

/** The commands in a document's blocks, each with the lines that are shown below it. @param {string} path */
function blocksOf(path) {
  const found = [];
  let isOpen = false;
  for (const line of textOf(path).split("\n")) {
    const command = /^ {4}\$ (.*)$/.exec(line)?.[1];
    if (command !== undefined) found.push({ command, shown: [] });
    else if (isOpen && line.startsWith("    ")) found.at(-1).shown.push(line.slice(4));
    isOpen = command !== undefined || (isOpen && line.startsWith("    "));
  }
  return found;
}

/**
 * Whether the lines printed are those shown. A line `..` stands for any number of lines.
 * @param {string[]} shown
 * @param {string[]} printed
 */
function areShown(shown, printed) {
  if (shown.length === 0) return printed.length === 0;
  const [first, ...rest] = shown;
  if (first === "..") return printed.some((_, at) => areShown(rest, printed.slice(at))) || areShown(rest, []);
  return printed.length > 0 && printed[0] === first && areShown(rest, printed.slice(1));
}

/** The files that README shows, by their names: a script, and modules whose first line is their name. */
function filesShown() {
  const files = new Map();
  let name;
  for (const line of textOf("README.md").split("\n")) {
    if (line.startsWith('    {"blocks"')) name = "script.json";
    else if (/^ {4}\$ |^\S/.test(line)) name = undefined;
    name = /^ {4}\/\/ ([\w.]+\.mjs)$/.exec(line)?.[1] ?? name;
    if (name !== undefined) files.set(name, `${files.get(name) ?? ""}${line.slice(4)}\n`);
  }
  return files;
}

const copy = mkdtempSync(join(tmpdir(), "sabsim documents "));
after(() => rmSync(copy, { recursive: true, force: true }));
const PROGRAM = join(copy, "crates/sabsim/out/sabsim");

cpSync(TOP, copy, { recursive: true, verbatimSymlinks: true, filter: (from) => !isLeftOut(relative(TOP, from)) });
for (const [name, text] of filesShown()) writeFileSync(join(copy, name), text);

/** What a user's shell has: nothing of this test's own run. */
const env = Object.fromEntries(Object.entries(process.env).filter(([name]) => !/^(NODE_|npm_|SABSIM)/i.test(name)));

/** Runs a command in the copy, which has the program only if it is built. */
function run(command, isBuilt) {
  rmSync(PROGRAM, { force: true });
  if (isBuilt) {
    mkdirSync(join(PROGRAM, ".."), { recursive: true });
    symlinkSync(SABSIM, PROGRAM);
  }
  return spawnSync("sh", ["-c", command], { cwd: copy, env, encoding: "utf8", maxBuffer: 2 ** 26 });
}

const inBlocks = ["README.md", "CONTRIBUTING.md", "recorder/README.md", "docs/RECORDER.md"].flatMap(blocksOf);
const inText = ["README.md", "CONTRIBUTING.md"].flatMap(spansOf).filter((span) => COMMAND.test(span));

test("the commands of the documents are those of the list", () => {
  const commands = new Set([...inBlocks.map(({ command }) => command), ...inText]);
  assert.deepEqual([...commands].sort(), COMMANDS.map(([command]) => command).sort());
});

for (const [command, { status, isBuilt = false, when = {}, by, words, notRun }] of COMMANDS) {
  if (notRun !== undefined) continue;
  if (by !== undefined) {
    test(`${command} is run by ${by}`, () => assert.ok(textOf(by).includes(words)));
    continue;
  }
  test(command, when, () => {
    const ran = run(command, isBuilt);
    assert.equal(ran.status, status, ran.stderr);
    for (const { shown } of inBlocks.filter((it) => it.command === command && it.shown.length > 0)) {
      const isAsShown = areShown(shown, ran.stdout.trimEnd().split("\n"));
      assert.ok(isAsShown, `shown is\n${shown.join("\n")}\nand printed\n${ran.stdout}`);
    }
  });
}

test("with nothing built the first command keeps explanation, picture and page", () => {
  const files = readdirSync(join(copy, "found")).filter((name) => name.startsWith("seed-13."));
  const kept = ["explained", "html", "json", "report", "svg", "trace.jsonl"].map((ending) => `seed-13.${ending}`);
  assert.deepEqual(files.filter((name) => !name.includes("original")), kept);
  const page = readFileSync(join(copy, "found/seed-13.html"), "utf8");
  assert.match(page, /<script type="text\/plain" id="simulator">[A-Za-z0-9+/=]{1000}/);
});

test("README names the kit that is here", withKit.when, () => {
  const { stdout } = spawnSync("rt", ["version"], { encoding: "utf8" });
  assert.equal(stdout.trimEnd().split(" ").slice(-2).join(" "), /`(logic [0-9a-f]+)`/.exec(textOf("README.md"))?.[1]);
});
