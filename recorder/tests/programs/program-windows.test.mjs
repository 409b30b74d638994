// Runs of programs that share more memory than a script has: what they touch stands in windows, in which sabsim replays
// and judges them. Which bytes stand where is worked out by hand.

import assert from "node:assert/strict";
import { cpSync, readFileSync, readdirSync } from "node:fs";
import { join } from "node:path";
import { describe, it } from "node:test";
import { keptProgram } from "../../lib/keeping/kept-program.mjs";
import { windowNames } from "../../lib/run/windows/window-names.mjs";
import { TouchedPages, Windows } from "../../lib/run/windows/windows.mjs";
import { commandThere, fileIn, refusedInALine, temporaryFolder } from "../helpers/common.mjs";
import { seedsTo } from "../helpers/recorded.mjs";
import { slowRaces } from "../helpers/slow-judge.mjs";
import { programIn, runsOf } from "../helpers/whole-programs.mjs";

/**
 * A program of two threads.
 * @param {string} memory what main makes, and names `shared`
 * @param {string} names by which both know its parts
 * @param {string} first what main does before it starts the worker
 * @param {string} act of the worker
 * @param {string} last what main does then
 */
const filesOf = (memory, names, first, act, last) => ({
  "main.mjs": `import { Worker } from "node:worker_threads";
${memory}
const ${names} = shared;
${first}
new Worker(new URL("./worker.mjs", import.meta.url), { workerData: shared });
${last}`,
  "worker.mjs": `import { workerData } from "node:worker_threads";
const ${names} = workerData;
${act}`,
});

/** @param {import("../helpers/whole-programs.mjs").Checked} outcome */
function readOf(outcome) {
  const { detail, checked, script = "{}", windows = [] } = outcome;
  assert.deepEqual([detail, checked], ["", true]);
  const { blocks, views, agents } = JSON.parse(script);
  const calls = agents.map((/** @type {any} */ agent) => agent.calls.filter(([, view]) => view !== "Int32_b3"));
  const places = windows.map(({ buffer, from, to, block, byte }) => [buffer, from, to, block, byte]);
  return { blocks, calls, views: new Map(views.map((/** @type {any} */ view) => [view.name, view])), places };
}

/** @param {number} length @param {Record<number, number>} bytes those that aren't zero @returns {string} */
const hexOf = (length, bytes) =>
  Buffer.from(Uint8Array.from({ length }, (_, at) => bytes[at] ?? 0)).toString("hex");

const LARGE = "const shared = new Int32Array(new SharedArrayBuffer(2 ** 20));";

const FAR = filesOf(LARGE, "large", "large[100_001] = 6;\nlarge[200_000] = 8;", `large[262_143] = 7;
Atomics.add(large, 100_000, 5);
Atomics.store(large, 0, 1);
Atomics.notify(large, 0);`, `Atomics.wait(large, 0, 0);
if (large[262_143] + large[100_001] !== 13) throw new Error("it isn't there");`);

describe("a buffer of a mebibyte, touched at three places", { concurrency: 3 }, () => {
  it("takes three pages, with what was in them before it was shared", async (context) => {
    const [outcome] = await runsOf(context, FAR);
    const { blocks, calls, places, views } = readOf(outcome);
    // Byte 400,000 begins a page, and byte 1,048,572 is in the last one. Nobody touches element 200,000.
    assert.deepEqual(places, [[4, 0, 64, 0, 0], [4, 400_000, 400_064, 0, 64], [4, 1_048_512, 1_048_576, 0, 128]]);
    assert.deepEqual([blocks, outcome.windows?.[0].name], [[192, 0, 0, 16_384], "main.mjs:2"]);
    assert.equal(outcome.bytes?.[0], hexOf(192, { 0: 1, 64: 5, 68: 6, 188: 7 }));
    assert.deepEqual(calls[0], [["store", "ordinary_main_mjs_2_at400000", 1, 6], ["wait", "main_mjs_2", 0, 0]]);
    assert.deepEqual(calls[1], [
      ["store", "ordinary_main_mjs_2_at1048512", 15, 7], ["add", "main_mjs_2_at400000", 0, 5],
      ["store", "main_mjs_2", 0, 1], ["notify", "main_mjs_2", 0],
    ]);
    const { block, offset, length } = views.get("main_mjs_2_at1048512");
    assert.deepEqual([block, offset, length], [0, 128, 16]);
  });

  it("has the same script for each seed that moves the same, and nothing of an earlier run", async (context) => {
    const outcomes = await runsOf(context, FAR, { seeds: [1, 2, 3, 4, 5, 6] });
    for (const outcome of outcomes) assert.equal(outcome.bytes?.[0], hexOf(192, { 0: 1, 64: 5, 68: 6, 188: 7 }));
    assert.equal(new Set(outcomes.map(({ windows }) => JSON.stringify(windows))).size, 1);
  });
});

describe("small buffers", { concurrency: 2 }, () => {
  it("are packed one after another, each at a multiple of 8", async (context) => {
    const [outcome] = await runsOf(context, filesOf(
      "const shared = [4, 8, 12, 1, 16, 3, 64, 100].map((length) => new Uint8Array(new SharedArrayBuffer(length)));",
      "all", "", "for (const bytes of all) Atomics.add(bytes, bytes.length - 1, bytes.length);", "",
    ));
    const { blocks, calls, places } = readOf(outcome);
    // Of the last one only the second page is touched. Block 3 is for messages.
    assert.deepEqual(places, [
      [0, 0, 4, 0, 0], [1, 0, 8, 0, 8], [2, 0, 12, 0, 16], [4, 0, 1, 0, 32], [5, 0, 16, 0, 40], [6, 0, 3, 0, 56],
      [7, 0, 64, 0, 64], [8, 64, 100, 0, 128],
    ]);
    assert.deepEqual(blocks, [164, 0, 0, 16_384]);
    assert.equal(outcome.bytes?.[0], hexOf(164, { 3: 4, 15: 8, 27: 12, 32: 1, 55: 16, 58: 3, 127: 64, 163: 100 }));
    assert.deepEqual(calls[1].slice(-2), [["add", "main_mjs_2_n7", 63, 64], ["add", "main_mjs_2_n8_at64", 35, 100]]);
  });

  it("have one view if there are more than a script has views", async (context) => {
    const [outcome] = await runsOf(context, filesOf(
      "const shared = Array.from({ length: 300 }, () => new Int32Array(new SharedArrayBuffer(64)));",
      "all", "", "all.forEach((words, number) => Atomics.store(words, 3, number));",
      "",
    ));
    const { blocks, calls, places } = readOf(outcome);
    assert.deepEqual([blocks, places.length], [[19_200, 0, 0, 16_384], 300]);
    assert.deepEqual([places[2], places[3], places[299]], [
      [2, 0, 64, 0, 128], [4, 0, 64, 0, 192], [300, 0, 64, 0, 19_136],
    ]);
    const stores = Array.from({ length: 300 }, (_, number) => ["store", "Int32_b0", 16 * number + 3, number]);
    assert.deepEqual(calls[1], stores);
  });
});

describe("buffers that were filled before they were shared", { concurrency: 2 }, () => {
  it("have their content if they are touched, and else one page at most", async (context) => {
    const [outcome] = await runsOf(context, filesOf(
      "const shared = [1, 2, 3, 4].map((value) => new Uint8Array(new SharedArrayBuffer(65_536)).fill(value));",
      "all", "", "all.forEach((bytes, at) => Atomics.add(bytes, 1_000 * (at + 1), 1));", "",
    ));
    const { blocks, places } = readOf(outcome);
    // Bytes 1,000 to 4,000 are in the pages 15, 31, 46 and 62. Of the first three buffers the filling is an event.
    assert.deepEqual(places, [
      [0, 0, 64, 0, 0], [0, 960, 1_024, 0, 64], [1, 0, 64, 0, 128], [1, 1_984, 2_048, 0, 192], [2, 0, 64, 0, 256],
      [2, 2_944, 3_008, 0, 320], [4, 3_968, 4_032, 0, 384],
    ]);
    assert.deepEqual([blocks, outcome.scriptHolds], [[448, 0, 0, 16_384], "all"]);
    const bytes = Array.from({ length: 448 }, (_, at) => Math.floor(at / 128) + 1);
    for (const at of [104, 208, 376, 416]) bytes[at] += 1;
    assert.equal(outcome.bytes?.[0], hexOf(448, bytes));
  });
});

describe("operations on many bytes", { concurrency: 2 }, () => {
  it("stay whole if they cross pages", async (context) => {
    const [outcome] = await runsOf(context, filesOf(
      `const shared = {
  bytes: new Uint8Array(new SharedArrayBuffer(100_000)), flag: new Int32Array(new SharedArrayBuffer(4)),
};`,
      "{ bytes, flag }", "", `bytes.fill(7, 100, 300);
bytes.set(Uint8Array.of(1, 2, 3), 127);
bytes.copyWithin(1_000, 250, 330);
new DataView(bytes.buffer).setUint16(1_087, 0x0506);
Atomics.store(flag, 0, 1);
Atomics.notify(flag, 0);`, `Atomics.wait(flag, 0, 0);
const seen = [126, 127, 129, 130, 1_000, 1_049, 1_050, 1_087, 1_088].map((at) => Atomics.load(bytes, at));
if (seen.join() !== "7,1,3,7,7,7,0,5,6") throw new Error("it is " + seen);`,
    ));
    const { blocks, places } = readOf(outcome);
    // Filled are pages 1 to 4, copied from 3 to 5, and to 15 and 16; the two bytes are in pages 16 and 17.
    assert.deepEqual(places, [[0, 0, 4, 0, 0], [4, 64, 384, 0, 8], [4, 960, 1_152, 0, 328]]);
    assert.deepEqual(blocks, [520, 0, 0, 16_384]);
    const events = (outcome.trace ?? "").split("\n").filter((line) => line.includes('"write":true,"atomic":false'))
      .map((line) => JSON.parse(line)).map(({ block, byte, size }) => [block, byte, size]);
    assert.deepEqual(events, [[0, 44, 200], [0, 71, 3], [0, 368, 80], [0, 455, 2]]);
  });

  it("that are longer than a script has room for leave the judging to the recorder", async (context) => {
    const files = filesOf("const shared = new Uint8Array(new SharedArrayBuffer(200_000));", "bytes", "", "FILLS", "");
    for (const [last, isThere] of [[65_536, true], [65_537, false]]) {
      const fills = { ...files, "worker.mjs": files["worker.mjs"].replace("FILLS", `bytes.fill(1, 0, ${last});`) };
      const [{ ending, script, trace, noScript, noTrace }] = await runsOf(context, fills);
      assert.deepEqual([ending, script !== undefined, trace !== undefined], ["finished", isThere, isThere]);
      for (const why of [noScript, noTrace]) assert.equal(/the recorder alone judges/.test(why ?? ""), !isThere);
    }
  });

  it("that are too many to remember leave the run without a script, and its trace is judged", async (context) => {
    // 140 times 1,024 elements are more than 128,000.
    const [outcome] = await runsOf(context, filesOf(
      "const shared = new BigInt64Array(new SharedArrayBuffer(2 ** 17));", "words", "",
      `for (let round = 1n; round <= 140n; round += 1n) {
  words.fill(round, 0, 1_024);
  Atomics.load(words, 2_000);
}`, "",
    ));
    assert.deepEqual([outcome.ending, outcome.checked, outcome.script], ["finished", false, undefined]);
    assert.match(outcome.noScript ?? "",
      /^so many ordinary writes were made to its buffers.* judges only the trace of such a run$/);
    const places = outcome.windows?.map(({ from, to, byte }) => [from, to, byte]);
    assert.deepEqual(places, [[0, 8_192, 0], [16_000, 16_064, 8_192]]);
    const lines = (outcome.trace ?? "").split("\n");
    const fills = lines.filter((line) => line.includes('"does":"write","block":0,"byte":0,"size":8192'));
    assert.equal(fills.length, 140);
  });
});

describe("more pages in a row than a block has", { concurrency: 2 }, () => {
  /** @type {[string, string, number, number[]][]} by hand: 70,000 bytes are 1,094 pages, and a block has 1,024 */
  const cuts = [
    ["between two pages", "", 65_536, [0]],
    ["before what crosses the two", "new DataView(bytes.buffer).getFloat64(65_532);", 65_472, [63, 64]],
  ];
  for (const [where, crosses, cut, behind] of cuts) {
    it(`are cut ${where}`, async (context) => {
      const [outcome] = await runsOf(context, filesOf(
        "const shared = new Uint8Array(new SharedArrayBuffer(200_000));", "bytes", "bytes[65_535] = bytes[65_536] = 3;",
        `let sum = 0;
for (let at = 0; at < 70_000; at += 64) sum += bytes[at];
${crosses}
Atomics.store(bytes, 65_471, sum);`, "",
      ));
      const { blocks, places } = readOf(outcome);
      assert.deepEqual(places, [[4, 0, cut, 0, 0], [4, cut, 70_016, 1, 0]]);
      assert.deepEqual(blocks, [cut, 70_016 - cut, 0, 16_384]);
      assert.equal(outcome.bytes?.[0], hexOf(cut, { 65_471: 3, 65_535: 3 }));
      assert.equal(outcome.bytes?.[1], hexOf(70_016 - cut, Object.fromEntries(behind.map((byte) => [byte, 3]))));
    });
  }
});

describe("calls that throw", { concurrency: 2 }, () => {
  it("throw the same: by their view's length, by its kind, and by their operand", async (context) => {
    const [outcome] = await runsOf(context, filesOf(
      "const shared = new SharedArrayBuffer(100_000);", "buffer", "", `const words = new Int32Array(buffer, 4_096, 5);
const floats = new Float64Array(buffer);
const none = new Int8Array(buffer, 8, 0);
const answers = [
  () => Atomics.load(words, 5), () => Atomics.store(words, -1, 1), () => Atomics.load(words, 4),
  () => Atomics.load(floats, 600), () => Atomics.load(none, 0), () => Atomics.add(words, 1, 1n),
].map((call) => {
  try {
    return call();
  } catch (thrown) {
    return thrown.name;
  }
});
const right = "RangeError,RangeError,0,TypeError,RangeError,TypeError";
if (answers.join() !== right) throw new Error("it is " + answers);`, "",
    ));
    const { calls, places, views } = readOf(outcome);
    // The five words are in one page. Element 600 is at byte 4,800, which begins a page.
    assert.deepEqual(places, [[4, 4_096, 4_160, 0, 0], [4, 4_800, 4_864, 0, 64]]);
    assert.deepEqual(calls[1].map(([name, view, index]) => [name, views.get(view).length, index]).slice(0, 5), [
      ["load", 5, 5], ["store", 5, -1], ["load", 16, 4], ["load", 8, 0], ["load", 0, 0],
    ]);
  });
});

describe("waits on two buffers at the same byte", { concurrency: 2 }, () => {
  it("are apart: a notify wakes those of its own buffer", async (context) => {
    const outcomes = await runsOf(context, {
      "main.mjs": `import { Worker } from "node:worker_threads";
const all = Array.from({ length: 5 }, () => new Int32Array(new SharedArrayBuffer(4)));
for (const mine of [3, 4]) new Worker(new URL("./worker.mjs", import.meta.url), { workerData: { all, mine } });
for (let count = Atomics.load(all[0], 0); count < 2; count = Atomics.load(all[0], 0)) Atomics.wait(all[0], 0, count);
for (const mine of [3, 4]) {
  Atomics.store(all[mine], 0, 1);
  Atomics.notify(all[mine], 0);
}`,
      "worker.mjs": `import { workerData } from "node:worker_threads";
const { all, mine } = workerData;
Atomics.add(all[0], 0, 1);
Atomics.notify(all[0], 0);
Atomics.wait(all[mine], 0, 0);`,
    }, { seeds: seedsTo(12) });
    const both = outcomes.filter(({ answers = [] }) => answers[1].includes("ok") && answers[2].includes("ok"));
    assert.ok(both.length > 0);
    for (const outcome of outcomes) readOf(outcome);
    for (const { answers = [], script = "" } of both) {
      const [{ calls }] = JSON.parse(script).agents;
      const notifies = calls.map(([name, view], at) => ({ name, view, answer: answers[0][at] }))
        .filter(({ name, view }) => name === "notify" && view !== "Int32_b3");
      const woken = notifies.map(({ view, answer }) => [view, answer]);
      assert.deepEqual(woken, [["main_mjs_2_n4", "1"], ["main_mjs_2_n5", "1"]]);
    }
  });
});

// Two threads race on a byte of a far page; a third thread does too, on one of the forty words.
const RACING = filesOf(
  "const shared = { many: Array.from({ length: 40 }, () => new Int32Array(new SharedArrayBuffer(8))), "
    + "large: new Uint8Array(new SharedArrayBuffer(2 ** 24)) };",
  "{ many, large }", "large[9_000_000] = 5;", `Atomics.store(many[39], 0, 1);
Atomics.notify(many[39], 0);
many[20][1] = 2;
large[9_000_000] = 4;
large[16_777_215] = large[9_000_001];`, `Atomics.wait(many[39], 0, 0);
const found = many[20][1] + large[9_000_000];`,
);

describe("unordered accesses", { concurrency: 2 }, () => {
  it("are those that a second judge finds in the trace, and go by the program's own bytes", async (context) => {
    const outcomes = await runsOf(context, RACING, { seeds: [1, 2, 3, 4, 5, 6, 7, 8] });
    assert.ok(outcomes.every(({ checked, script }) => checked && script !== undefined));
    const pairs = outcomes.map(({ trace = "" }) => {
      const lines = trace.trimEnd().split("\n").map((line) => JSON.parse(line));
      const events = lines.filter(({ event }) => event !== undefined);
      return new Set(slowRaces(events).map((pair) => pair.map((at) => events[at].source).sort().join(" ")));
    });
    assert.deepEqual(outcomes.map(({ races }) => new Set(races.map(({ lines }) => lines.join(" ")))), pairs);
    assert.ok(pairs.some((each) => each.has("main.mjs:7:34 worker.mjs:6:18")));
    for (const { races } of outcomes.filter(({ ending }) => ending === "race")) {
      assert.ok(races.some(({ sides }) => sides.some(({ block, byte }) => block === 41 && byte === 9_000_000)));
    }
  });

  it("are judged in the trace of a run that has no script", async (context) => {
    const files = { ...RACING };
    const wait = "Atomics.wait(many[39], 0, 0);";
    // With the threads that is more than the agents that a script can have.
    const waits = "await Promise.all(Array.from({ length: 15 }, () => Atomics.waitAsync(many[39], 0, 0).value));";
    files["main.mjs"] = files["main.mjs"].replace(wait, waits);
    const outcomes = await runsOf(context, files, { seeds: [1, 2, 3, 4, 5, 6, 7, 8] });
    const waited = outcomes.filter(({ noScript }) => noScript !== undefined);
    assert.ok(waited.length > 0);
    for (const { ending, trace = "" } of waited) {
      assert.equal(ending, "race");
      const events = trace.trimEnd().split("\n").map((line) => JSON.parse(line));
      assert.ok(slowRaces(events).length > 0 && events.every(({ block, byte }) => block < 4 && byte < 65_536));
    }
  });
});

describe("a kept run", () => {
  const home = temporaryFolder();
  const main = programIn(home, RACING);
  const folder = join(home, "kept");
  const words = ["--program", main, "--seeds", "1..8", "--jobs", "1", "--no-shorten", "--out", folder];
  const recorded = commandThere(words);

  it("says which bytes are where, is made again, and differs by the program's own bytes", async () => {
    const { status, stdout } = await recorded;
    assert.equal(status, 1, stdout);
    assert.match(stdout, /every run was replayed and judged by the simulator/);
    assert.doesNotMatch(stdout, /not kept|no script/);
    const name = readdirSync(folder).find((each) => each.endsWith(".program.json")) ?? "";
    const kept = join(folder, name);
    const words = readFileSync(kept.replace("program.json", "words"), "utf8").split("\n");
    const bytes = "bytes 9000000 to 9000063 of the program's block 41 (main.mjs:2, number 41)";
    const line = words.find((each) => each.endsWith(bytes)) ?? "";
    const [, from, to] = /^bytes (\d+) to (\d+) of block 0: /.exec(line) ?? [];
    assert.deepEqual([Number(to) - Number(from), Number(from) % 8], [63, 0]);
    const page = readFileSync(kept.replace("program.json", "html"), "utf8");
    assert.ok(page.includes(bytes));
    // It shows which of the trace's events race.
    assert.match(page, /"races":\[\[\d+,\d+\]/);
    const again = await commandThere(["--replay", kept]);
    assert.deepEqual([again.status, again.stdout.split("\n")[1].replace(/:.*/, "")], [1, "1 of 1 run failed"]);
    assert.match(again.stdout, /every run was replayed and judged by the simulator/);
    // Another page comes before those that are known, so all that follow stand elsewhere.
    const changed = join(home, "changed");
    cpSync(folder, join(changed, "kept"), { recursive: true });
    const wait = RACING["main.mjs"].replace("Atomics.wait", "large[4_000_000] = 1;\nAtomics.wait");
    const otherMain = programIn(changed, { ...RACING, "main.mjs": wait });
    const other = await commandThere(["--program", otherMain, "--replay", join(changed, "kept", name)]);
    assert.equal(other.status, 3);
    const now = /the script has agent 1's .* next, and now comes agent 0's ordinary write .*, \w+_at4000000\[0\] = 1/;
    assert.match(other.stderr, now);
  });

  it("is refused if its windows are none", async () => {
    await recorded;
    const name = readdirSync(folder).find((each) => each.endsWith(".program.json")) ?? "";
    const kept = join(folder, name);
    const text = readFileSync(kept, "utf8");
    const [first, second, ...others] = JSON.parse(text).script.windows;
    const [buffer, from, to, block, byte] = first;
    const common = "two of its script's windows have a byte in common";
    /** @type {[number[][], string][]} */
    const wrong = [
      [[[-1, ...first], second], "its script's windows must have five numbers each"],
      [[first, [buffer, to - 1, to + 63, 2, 65_000]], common],
      [[[buffer, from, to, block, byte], [second[0], second[1], second[2], block, byte + to - from - 1]], common],
      [[first, [second[0], second[1], second[1], second[3], second[4]]], "one of its script's windows has no byte"],
    ];
    const texts = wrong.map(([pair]) =>
      text.replace(/"windows":\[\[.*?\]\]/, `"windows":${JSON.stringify([...pair, ...others])}`));
    for (const [at, [, says]] of wrong.entries()) {
      assert.notEqual(texts[at], text);
      assert.throws(() => keptProgram(texts[at], kept), refusedInALine(new RegExp(`kept: ${says}$`)));
    }
    const refused = fileIn(folder, "wrong.program.json", texts[0]);
    const { status, stderr } = await commandThere(["--replay", refused]);
    assert.deepEqual([status, stderr.trim().replace(/.*kept: /, "")], [2, wrong[0][1]]);
  });
});

describe("windows", () => {
  const stretch = (/** @type {number} */ from, /** @type {number} */ to) => ({ buffer: 4, from, to });
  const placesOf = (/** @type {Windows | undefined} */ windows) =>
    windows?.list.map(({ from, block, byte }) => [from, block, byte]);

  it("are the touched pages; neighbours are joined", () => {
    const touched = new TouchedPages([0, 200, 0, 0, 1_000]);
    for (const [from, to] of [[999, 1_000], [63, 64], [64, 65], [256, 320]]) touched.add(4, from, to);
    touched.add(1, 150, 151);
    assert.deepEqual([...touched.stretches()], [
      { buffer: 1, from: 128, to: 192 }, { buffer: 4, from: 0, to: 128 }, { buffer: 4, from: 256, to: 320 },
      { buffer: 4, from: 960, to: 1_000 },
    ]);
  });

  it("go into the first block that has room", () => {
    const windows = Windows.packed([
      stretch(0, 40_000), stretch(64_000, 104_000), stretch(128_000, 153_533), stretch(192_000, 192_004),
    ]);
    // 40,000 and 25,533 are 65,533, so 4 bytes more have no room there; 40,000 have it in the second one.
    assert.deepEqual(placesOf(windows), [[0, 0, 0], [64_000, 1, 0], [128_000, 0, 40_000], [192_000, 1, 40_000]]);
    assert.deepEqual(windows?.lengths(16_384), [65_533, 40_004, 0, 16_384]);
  });

  it("have room for 3,072 pages that are apart, and for no more", () => {
    const pages = (/** @type {number} */ length) =>
      Array.from({ length }, (_, at) => stretch(128 * at, 128 * at + 64));
    assert.deepEqual(Windows.packed(pages(3_072))?.lengths(16_384), [65_536, 65_536, 65_536, 16_384]);
    assert.equal(Windows.packed(pages(3_073)), undefined);
  });

  it("are cut where no access crosses, if no block has room for the whole", () => {
    const touched = new TouchedPages([0, 0, 0, 0, 300_000]);
    touched.add(4, 0, 40_000);
    touched.add(4, 40_000, 80_000);
    touched.add(4, 80_064, 200_000);
    const cut = (/** @type {number[]} */ ...given) => touched.cut(4, given[0], given[1]);
    // Byte 40,000 begins page 625; 80,000 page 1,250, which nobody touches.
    const found = [cut(0, 65_536), cut(0, 40_063), cut(0, 39_999), cut(40_000, 80_063)];
    assert.deepEqual(found, [40_000, 40_000, 0, 80_000]);
    assert.equal(Windows.packed(touched.stretches(), (_, from, to) => cut(from, to)), undefined);
    const all = [stretch(0, 60_032), stretch(70_016, 110_016), stretch(120_000, 160_000), stretch(170_048, 210_048)];
    assert.deepEqual(placesOf(Windows.packed(all, (_, from, to) => cut(from, to))), undefined);
    const pages = Windows.packed(all, (_, from, to) => Math.max(from, to - (to % 64)));
    // The second block and the third have room for 25,536 bytes each.
    assert.deepEqual(placesOf(pages), [
      [0, 0, 0], [70_016, 1, 0], [120_000, 2, 0], [170_048, 1, 40_000], [195_584, 2, 40_000],
    ]);
  });

  it("lead there and back", () => {
    const windows = Windows.packed([stretch(64, 128), stretch(640, 704), { buffer: 7, from: 0, to: 12 }]);
    assert.deepEqual(windows?.placeOf(4, 700), { block: 0, byte: 124 });
    assert.deepEqual(windows?.placeOf(7, 11), { block: 0, byte: 139 });
    assert.deepEqual(windows?.placeOf(3, 4_000), { block: 3, byte: 4_000 });
    for (const [buffer, byte] of [[4, 128], [4, 63], [7, 12], [5, 0]]) {
      assert.equal(windows?.at(buffer, byte), undefined);
    }
    assert.deepEqual(windows?.behind(0, 124), { buffer: 4, byte: 700 });
    assert.deepEqual([windows?.behind(0, 140), windows?.behind(1, 0)], [undefined, undefined]);
  });

  it("have views with names of their own, of at most 23 characters", () => {
    const window = (/** @type {number} */ buffer, /** @type {number} */ from) =>
      ({ buffer, from, to: from + 64, block: 0, byte: 8 });
    const called = [
      "../lib/ring.mjs:12", "init.mjs:3, number 2", "", "a-very-long-name-of-a-file.mjs:104", "waitAsync_2_of:3",
    ];
    const names = windowNames(new Map([
      [window(0, 0), [4, 5]], [window(0, 640), [8]], [window(1, 0), [1]], [window(2, 64), [1]],
      [window(3, 1_048_512), [1]], [window(4, 0), [1]],
    ]), called);
    assert.deepEqual(names.map(({ name, kind, length }) => [name, kind, length]), [
      ["ring_mjs_12", 4, 32], ["ring_mjs_12_2", 5, 16], ["ring_mjs_12_at640", 8, 8], ["mjs_3_n2", 1, 64],
      ["buffer_2_at64", 1, 64], ["file_mjs_104_at1048512", 1, 64], ["2_of_3", 1, 64],
    ]);
    assert.ok(names.every(({ offset, block }) => offset === 8 && block === 0));
  });
});
