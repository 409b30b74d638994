// Values as the code wrote them: in scripts, on pages, in tests' failures and in what --replay says; and what a page
// says about how its run was made.

import assert from "node:assert/strict";
import { spawnSync } from "node:child_process";
import { mkdirSync, readFileSync, readdirSync, writeFileSync } from "node:fs";
import { join } from "node:path";
import { test } from "node:test";
import { pathToFileURL } from "node:url";
import { modulePath, optionsText, shortPath } from "../../lib/keeping/about-run.mjs";
import { runDataOf } from "../../lib/keeping/kept-page.mjs";
import { Run } from "../../page/model.mjs";
import { KINDS } from "../../script/kinds.mjs";
import { elementText, storedBytes } from "../../script/values.mjs";
import { labelOf, writtenText, writtenView } from "../../script/written.mjs";
import { record } from "../../recorder.mjs";
import { assertAgents } from "../../testing.mjs";
import { commandHere } from "../helpers/command-here.mjs";
import { agentsPath, commandNow, fileIn, temporaryFolder } from "../helpers/common.mjs";
import { CHECKER, CHECKING, withShell } from "../helpers/needs.mjs";
import { recorded, seedsTo } from "../helpers/recorded.mjs";
import { simulated } from "../helpers/simulate.mjs";
import { whereNodeHasIt } from "../helpers/where-node-has-it.mjs";

const RING = agentsPath("sample-ring");
const BITS = 4598175219545276416n;

/** Makes a test of Float16Array. */
const withFloat16 = whereNodeHasIt(typeof Float16Array !== "undefined");

/** The ring's two agents without pilots, so that no worker begins that isn't needed. */
const SMALL = { agents: 2, everywhere: true };

test("a value is written as JavaScript writes it, whatever its kind", () => {
  const bytesOf = (Kind, value) => new Uint8Array(Kind.of(value).buffer);
  const cases = [
    [Float64Array, 0.25, "0.25"], [Float64Array, -0, "-0"], [Float64Array, NaN, "NaN"], [Float32Array, 0.5, "0.5"],
    [Float64Array, -1.7976931348623157e308, "-1.7976931348623157e+308"], [Int8Array, -3, "-3"],
    [Uint8ClampedArray, 300, "255"], [BigInt64Array, -5n, "-5n"],
    [BigUint64Array, 2n ** 64n - 1n, `${2n ** 64n - 1n}n`],
  ];
  for (const [Kind, value, text] of cases) {
    assert.equal(elementText(Kind.name.replace("Array", ""), bytesOf(Kind, value)), text);
  }
  const zeros = [...Array(9).fill("0"), "0n", "0n", "0"];
  assert.deepEqual(KINDS.map((kind) => elementText(kind, new Uint8Array(8))), zeros);
  assert.deepEqual(elementText("Float64", storedBytes("BigUint64", `${BITS}`)), "0.25");
  assert.deepEqual([...storedBytes("Int16", -2)], [254, 255]);
});

test("the value of a Float16 is read from its bits, also if the engine has none", () => {
  const cases = [
    [0x0000, "0"], [0x8000, "-0"], [0x3c00, "1"], [0xbe00, "-1.5"], [0x2e66, "0.0999755859375"], [0x7bff, "65504"],
    [0x0400, "0.00006103515625"], [0x03ff, "0.00006097555160522461"], [0x8001, "-5.960464477539063e-8"],
    [0x7c00, "Infinity"], [0xfc00, "-Infinity"], [0x7c01, "NaN"], [0xfe00, "NaN"],
  ];
  for (const [bits, text] of cases) assert.equal(elementText("Float16", storedBytes("Uint16", bits)), text);
});

withFloat16("the value of each Float16 is that of the engine's array", () => {
  for (let bits = 0; bits < 2 ** 16; bits += 1) {
    const [value] = new Float16Array(Uint16Array.of(bits).buffer);
    assert.equal(elementText("Float16", storedBytes("Uint16", bits)), Object.is(value, -0) ? "-0" : `${value}`);
  }
});

test("a store that stands for an ordinary write shows the array and the value of the code", () => {
  const view = (name, kind, offset = 0, length = 4) => ({ name, kind, block: 0, offset, length });
  const list = [
    view("samples", "Float64", 8), view("ordinary_samples", "BigUint64", 8), view("LAST", "Float32", 0, 1),
    view("init_LAST", "Uint32", 0, 1), view("ordinary_Float64_b1", "BigUint64"),
    view("ordinary_BigUint64", "BigUint64"),
    view("ordinary_Int8", "Int8"), view("ordinary_odd", "Uint8"), view("odd", "Int32"),
  ];
  const views = new Map(list.map((each) => [each.name, each]));
  const textOf = (name, index, operand) => writtenText(views.get(name), views, index, operand);
  assert.deepEqual([
    textOf("ordinary_samples", 1, `${BITS}`), textOf("init_LAST", 0, 0x3fc00000),
    textOf("ordinary_Float64_b1", 2, `${BITS}`), textOf("ordinary_BigUint64", 2, `${BITS}`),
    textOf("ordinary_Int8", 3, -3), textOf("ordinary_odd", 0, 7),
  ], [
    "samples[1] = 0.25", "LAST = 1.5", "Float64_b1[2] = 0.25", `BigUint64[2] = ${BITS}n`, "Int8[3] = -3", "odd[0] = 7",
  ]);
  assert.equal(writtenView(views.get("samples"), views), views.get("samples"));
  assert.equal(labelOf(view("Int32", "Int32", 0, 1), 0), "Int32[0]");
});

test("a script has ordinary writes under the code's names and kinds, and the bits of floats", async () => {
  const [{ script }] = await recorded({ module: RING, ...SMALL }, [1]);
  const { views, agents } = JSON.parse(script);
  assert.deepEqual(views.filter(({ name }) => name.endsWith("samples")), [
    { name: "samples", kind: "Float64", block: 0, offset: 8, length: 2 },
    { name: "ordinary_samples", kind: "BigUint64", block: 0, offset: 8, length: 2 },
  ]);
  const stores = agents[0].calls.filter(([, view]) => view === "ordinary_samples");
  assert.deepEqual(stores[0], ["store", "ordinary_samples", 0, `${BITS}`]);
  assert.ok(stores.length > 1);
  const { status, output } = simulated(["replay", "--format", "explained", "--acts"], script);
  assert.equal(status, 0);
  assert.match(output, /^\d+ 0 \d+ act \d+n +store\(ordinary_samples, 0, 4598175219545276416n\) changes /m);
});

test("a test that fails, and --replay, have the values of the code", async (context) => {
  const folder = temporaryFolder(context);
  const module = fileIn(folder, "ring.mjs", readFileSync(RING, "utf8"));
  const out = join(folder, "found");
  const given = { module, ...SMALL, seeds: "1..40", strategy: "uniform", out, jobs: 1 };
  await assert.rejects(assertAgents(given), ({ message }) => {
    const [, acts] = message.split("Its last acts");
    assert.match(acts, /^[ >]+\d+ 0 \d+ write +writes samples\[[01]\], .+ from [\d.]+ to \d\.25, at .+$/m);
    assert.doesNotMatch(message, /ordinary_|\d{12}n/);
    assert.match(message,
      /\nin seed-\d+\.explained and seed-\d+\.svg a float [^\n]+ is the whole number with the same bits$/);
    return true;
  });
  const [, seed] = /seed-(\d+)\.html/.exec(readdirSync(out).join());
  const script = join(out, `seed-${seed}.json`);
  const again = () => commandHere([module, "--replay", script, ...CHECKING]);
  const same = await again();
  assert.deepEqual([same.status, same.stderr], [1, ""], same.stdout);
  writeFileSync(module, readFileSync(RING, "utf8").replace("= at + 0.25;", "= at + 0.5;"));
  const other = await again();
  assert.equal(other.status, 3);
  assert.match(other.stderr, /ordinary write before its call \d+ was samples\[0\] = 0\.25 in the script, and is now /);
  assert.match(other.stderr, /and is now samples\[0\] = 0\.5\n/);
});

/** Runs of the ring, each with its trace. @param {object} [more] */
const ringRuns = (more = {}) => recorded({ module: RING, strategy: "uniform", trace: true, ...more }, seedsTo(40));

/** @type {ReturnType<typeof ringRuns> | undefined} the same runs for several tests */
let sameRuns;

/** The page of the first run of the ring that fails in a way. @param {string} ending @param {object} [more] */
async function ringRun(ending, more) {
  const outcomes = await (more === undefined ? (sameRuns ??= ringRuns()) : ringRuns({ ...SMALL, ...more }));
  const outcome = outcomes.find((each) => each.ending === ending);
  assert.notEqual(outcome, undefined, outcomes.map((each) => each.ending).join());
  const { output } = simulated(["replay", "--format", "json"], outcome.script);
  return { outcome, run: new Run(runDataOf(outcome, output, pathToFileURL(RING).href)) };
}

test("a page has the values of the code: of writes, of reads and in memory", async () => {
  const { run } = await ringRun("race");
  const ordinary = run.steps.filter(({ what }) => what === "ordinary");
  const written = ordinary.filter(({ text }) => text.startsWith("writes"));
  assert.deepEqual(written.map(({ text, changes }) => [text, ...changes]), [
    ["writes samples[0]", { name: "samples[0]", before: "0", after: "0.25" }],
    ["writes samples[1]", { name: "samples[1]", before: "0", after: "1.25" }],
    ["writes samples[0]", { name: "samples[0]", before: "0.25", after: "2.25" }],
    ["writes samples[1]", { name: "samples[1]", before: "1.25", after: "3.25" }],
  ]);
  assert.equal(written[3].sentence, "writes samples[1], without Atomics: changes samples[1] from 1.25 to 3.25");
  const read = ordinary.filter(({ text }) => text.startsWith("reads"));
  assert.deepEqual(read.map(({ text, answer }) => `${text} ${answer}`), [
    "reads samples[0] = 0.25", "reads samples[1] = 1.25", "reads samples[0] = 2.25", "reads samples[1] = 3.25",
  ]);
  assert.equal(read[0].sentence, "reads samples[0], which is 0.25, without Atomics");
  const shown = run.rows.map(({ name, cells }) => [name, ...cells.map(({ label }) => label)]);
  assert.deepEqual(shown, [["HEAD", "HEAD"], ["TAIL", "TAIL"], ["samples", "samples[0]", "samples[1]"]]);
});

test("a read that comes too late shows what it has read", async () => {
  const { run, outcome } = await ringRun("failed");
  const [, wrong] = /threw Error: (\d\.25) in place of/.exec(outcome.detail);
  const reads = run.steps.filter(({ text }) => text.startsWith("reads samples"));
  assert.equal(reads.at(-1).answer, `= ${wrong}`);
});

test("what an ordinary read has read is in no trace: sabsim's judge takes no such member", async () => {
  const { outcome: { trace, accesses } } = await ringRun("race");
  const events = trace.trimEnd().split("\n").map((line) => JSON.parse(line));
  const members = ["event", "agent", "call", "does", "block", "byte", "size", "read", "write", "atomic", "waiters",
    "source"];
  for (const event of events) assert.deepEqual(Object.keys(event), members);
  // It is read to its end, and has races.
  assert.equal(simulated(["judge", "--trace"], trace).status, 5);
  assert.deepEqual(accesses.arrays, [{ name: "Float64_at8", kind: "Float64", block: 0, offset: 8, length: 2 }]);
  const ordinary = events.filter(({ does }) => does === "read" || does === "write");
  assert.deepEqual(accesses.made.map(([event]) => event), ordinary.map(({ event }) => event));
});

test("the headline of a page and its timeline name an element alike, with names and without", async (context) => {
  const code = readFileSync(RING, "utf8");
  const nameless = fileIn(temporaryFolder(context), "ring.mjs", code.replace(/, names: .*\} \};/, " };"));
  for (const names of [true, false]) {
    const { outcome: { detail, races: [{ sides }] }, run } = await ringRun("race",
      names ? undefined : { module: nameless });
    const name = names ? "samples" : "Float64_at8";
    for (const [at, step] of run.racing[0].map((index) => run.steps[index]).entries()) {
      assert.match(sides[at].element, new RegExp(`^${name}\\[[01]\\]$`));
      assert.equal(step.text.replace(/^(?:reads|writes) /, ""), sides[at].element);
      assert.ok(detail.includes(step.text), `${detail}\n${step.text}`);
    }
    assert.deepEqual(run.rows.map(({ name: row }) => row).at(-1), name);
  }
});

test("an element of each kind, a DataView's too, has the code's kind", async (context) => {
  const module = fileIn(temporaryFolder(context), "kinds.mjs", `
    export const setup = { agents: 1, buffers: [64, 8],
      names: { ratio: { kind: "Float64", buffer: 0, offset: 32, length: 1 } } };
    export function init([buffer]) {
      new Float64Array(buffer)[4] = 0.125;
    }
    export default ({ buffers: [buffer, other] }) => {
      new Int8Array(other)[1] = -3;
      new Float32Array(buffer, 8, 1)[0] = 1.5;
      new BigInt64Array(buffer)[2] = -7n;
      new Uint8ClampedArray(buffer)[1] = 300;
      const view = new DataView(buffer, 16);
      view.setFloat64(16, 0.5, true);
      view.setInt16(25, 258);
      new Float64Array(buffer).fill(2.5, 6);
      new BigInt64Array(buffer)[2] === -7n || view.getFloat64(16, true);
      new Uint8Array(buffer)[39] === 63 || view.getFloat64(16, true);
      Atomics.load(new Int32Array(buffer), 0);
    };
  `);
  const [outcome] = await recorded({ module, agents: 1, trace: true }, [1]);
  const { output } = simulated(["replay", "--format", "json"], outcome.script);
  const { steps, rows } = new Run(runDataOf(outcome, output, pathToFileURL(module).href));
  const lines = steps.map(({ text, answer, changes }) =>
    [`${text} ${answer}`.trim(), ...changes.map(({ name, before, after }) => `${name} ${before} ${after}`)]);
  assert.deepEqual(lines, [
    ["the start", "ratio 0 0.125"],
    ["writes Int8_b1[1]", "Int8_b1[1] 0 -3"],
    ["writes Float32_b0_at8_x1[0]", "Float32_b0_at8_x1[0] 0 1.5"],
    ["writes BigInt64_b0[2]", "BigInt64_b0[2] 0n -7n"],
    ["writes Uint8Clamped_b0[1]", "Uint8Clamped_b0[1] 0 255"],
    ["writes ratio", "ratio 0.125 0.5"],
    ["writes bytes 41 to 42 of block 0", "Uint8_b0[41] 0 1", "Uint8_b0[42] 0 2"],
    ["writes Float64_b0[6] to Float64_b0[7]", "Float64_b0[6] 0 2.5", "Float64_b0[7] 0 2.5"],
    ["reads BigInt64_b0[2] = -7n"],
    ["reads Uint8_b0[39] = 63"],
    ["load(Int32_b0, 0) = 65280"],
    ["the end: finished"],
  ]);
  // Byte 39 is the name's own, so no other row has it.
  assert.deepEqual(rows.map(({ name, cells }) => [name, cells.map(({ byte }) => byte)]), [
    ["ratio", [32]], ["Int8_b1", [1]], ["Float32_b0_at8_x1", [8]], ["BigInt64_b0", [16]], ["Uint8Clamped_b0", [1]],
    ["Uint8_b0", [41, 42]], ["Float64_b0", [48, 56]], ["Int32_b0", [0]],
  ]);
});

withFloat16("a Float16Array is watched, and the script has the bits", async (context) => {
  const module = fileIn(temporaryFolder(context), "halves.mjs", `
    export const setup = { agents: 1, buffers: [16], names: { ratios: { kind: "Uint16", buffer: 0, offset: 8 } } };
    export function init([buffer]) {
      new Float16Array(buffer)[0] = 0.25;
    }
    export default ({ buffers: [buffer] }) => {
      const halves = new Float16Array(buffer);
      halves[1] = 1.5;
      new DataView(buffer).setFloat16(4, -2, true);
      new Float16Array(buffer, 8).fill(0.5, 2);
      halves.at(0) + halves[6];
      Atomics.load(new Int32Array(buffer), 0);
      for (const wrong of [() => Atomics.load(halves, 0), () => Atomics.wait(halves, 0, 0, 0)]) {
        try {
          wrong();
        } catch (error) {
          if (error instanceof TypeError) continue;
        }
        throw new Error("Atomics took a Float16Array");
      }
    };
  `);
  const [outcome] = await recorded({ module, agents: 1, trace: true }, [1]);
  assert.equal(outcome.ending, "finished", outcome.detail);
  const { views, agents } = JSON.parse(outcome.script);
  assert.deepEqual(views.filter(({ kind }) => kind.startsWith("Float")), []);
  assert.ok(views.some(({ name, kind }) => name === "ordinary_Float16" && kind === "Uint16"));
  assert.deepEqual(agents[0].calls.filter(([name]) => name === "store").map((call) => call.slice(1)), [
    ["ordinary_Float16", 1, 0x3e00], ["ordinary_Uint16", 2, 0xc000], ["ordinary_Float16", 6, 0x3800],
    ["ordinary_Float16", 7, 0x3800],
  ]);
  const { output } = simulated(["replay", "--format", "json"], outcome.script);
  const { steps } = new Run(runDataOf(outcome, output, pathToFileURL(module).href));
  assert.deepEqual(steps.map(({ text, answer }) => `${text} ${answer}`.trim()), [
    "the start",
    "writes Float16[1]",
    "writes bytes 4 to 5 of block 0",
    "writes Float16_at8[2] to Float16_at8[3]",
    "reads Float16[0] = 0.25",
    "reads Float16[6] = 0.5",
    `load(Int32, 0) = ${0x3e003400}`,
    "the end: finished",
  ]);
});

withFloat16("so is one of a program", async (context) => {
  const program = fileIn(temporaryFolder(context), "main.mjs", `
    import { Worker, isMainThread, workerData } from "node:worker_threads";
    const buffer = isMainThread ? new SharedArrayBuffer(64) : workerData;
    if (isMainThread) new Worker(new URL(import.meta.url), { workerData: buffer });
    const halves = new Float16Array(buffer);
    if (isMainThread) halves[3] = 0.25;
    else halves[3] += 1;
  `);
  const { ending, script, races } = await record({ program, sabsim: CHECKER, everywhere: true });
  assert.equal(ending, "race");
  const { views } = JSON.parse(script);
  assert.ok(views.some(({ name, kind }) => name === "ordinary_Float16_b0" && kind === "Uint16"), script);
  for (const { sides } of races) for (const { element } of sides) assert.equal(element, "Float16_b0[3]");
});

/** The data of a kept page. @param {string} path */
const dataOf = (path) =>
  JSON.parse(/<script type="application\/json" id="run">([^]*?)<\/script>/.exec(readFileSync(path, "utf8"))[1]);

test("a kept page says its module, options and versions, and its command makes the run again", withShell, (context) => {
  const folder = temporaryFolder(context);
  mkdirSync(join(folder, "src"));
  writeFileSync(join(folder, "src", "ring.mjs"), readFileSync(RING, "utf8"));
  const words = ["src/ring.mjs", "--seeds", "1..40", "--strategy", "uniform", "--timeouts", "0.5", "--out", "found"];
  const made = commandNow([...words, "--no-shorten", ...CHECKING], { cwd: folder });
  assert.equal(made.status, 1, made.stderr);
  const name = readdirSync(join(folder, "found")).find((each) => each.endsWith(".html"));
  // The explained report has bits there. A line beside the kept files says so.
  const said = "\\nin seed-(\\d+)\\.explained and seed-\\1\\.svg a float that was written without "
    + "Atomics is the whole number with the same bits\\n$";
  assert.match(made.stdout, new RegExp(said));
  const { about, command, seed } = dataOf(join(folder, "found", name));
  assert.deepEqual([about.module, about.options], ["src/ring.mjs", "--strategy uniform --timeouts 0.5"]);
  const { version } = JSON.parse(readFileSync(new URL("../../../package.json", import.meta.url), "utf8"));
  assert.match(about.made, new RegExp(`^sabsim ${version.replaceAll(".", "\\.")}, .+, node ${process.versions.node}$`));
  assert.equal(command.script, `found/seed-${seed}.json`);
  assert.ok(!`${about.module} ${command.script}`.includes(folder));
  const text = `${command.options} --replay ${command.script}${command.args} --check 0`;
  const again = spawnSync("sh", ["-c", text], { cwd: folder, encoding: "utf8" });
  assert.equal(again.status, 1, again.stderr);
  assert.match(again.stdout, new RegExp(`^replayed found/seed-${seed}\\.json`));
});

test("the page of a test's run has a command, unless the test has a check of its own", async (context) => {
  const folder = temporaryFolder(context);
  for (const [own, check] of [[false, undefined], [true, () => false]]) {
    const out = join(folder, `found-${own}`);
    const options = { module: RING, seeds: "1..40", strategy: "uniform", out, check, shorten: false };
    await assert.rejects(assertAgents(options));
    const { about, command } = dataOf(join(out, readdirSync(out).find((each) => each.endsWith(".html"))));
    assert.equal(about.options, "--strategy uniform");
    assert.equal(command === undefined, own);
    if (!own) assert.match(command.options, /^node \S*record\.mjs \S*sample-ring\.mjs$/);
  }
});

test("paths are as short as they can be, and options are those that were given", () => {
  const here = process.cwd();
  assert.deepEqual([shortPath(join(here, "a", "b.mjs")), shortPath("a/b.mjs"), shortPath(here)],
    ["a/b.mjs", "a/b.mjs", here]);
  assert.equal(shortPath("/nowhere-at-all/b.mjs"), "/nowhere-at-all/b.mjs");
  assert.equal(modulePath(pathToFileURL(join(here, "a b.mjs")).href), "a b.mjs");
  assert.equal(modulePath("file:///x.mjs?y"), "file:///x.mjs?y");
  assert.equal(optionsText({ strategy: "mixed", timeouts: 0.05, ordinary: "watch", args: [] }), "");
  assert.equal(optionsText({ agents: 3, buffers: [4, 8], noBlock: [0, 2], fresh: true, failFast: true, args: ["a b"] }),
    "--agents 3 --buffers 4,8 --no-block 0 --no-block 2 --fresh -- 'a b'");
});
