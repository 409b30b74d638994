// Scripts, reports and names: what people and sabsim read.

import assert from "node:assert/strict";
import { readFileSync, readdirSync } from "node:fs";
import { test } from "node:test";
import { fileURLToPath } from "node:url";
import { namedCallText, textRoom, viewKey, viewName } from "../../lib/memory/spelling.mjs";
import { traceText } from "../../lib/run/script/trace.mjs";
import { KINDS } from "../../script/kinds.mjs";
import { firstDifference, reportText } from "../../script/report.mjs";
import { scheduleText, scriptText } from "../../script/text.mjs";
import { groupOf } from "../helpers/groups.mjs";
import { logOf } from "../helpers/logs.mjs";

const EXAMPLES = new URL("../../../examples/", import.meta.url);
const kind = (name) => KINDS.indexOf(name);

test("a view is named by its kind and place, and no two have one name or one key", () => {
  const name = (...view) => viewName([16], { kind: kind(view[0]), block: 0, offset: view[1], length: view[2] });
  assert.equal(name("Int32", 0, 4), "Int32");
  assert.equal(name("Int32", 8, 2), "Int32_at8");
  assert.equal(name("Int32", 8, 1), "Int32_at8_x1");
  assert.equal(name("BigInt64", 0, 1), "BigInt64_x1");
  const several = { kind: kind("Uint8"), block: 1, offset: 0, length: 3 };
  assert.equal(viewName([16, 3], several), "Uint8_b1");
  const longest = { kind: kind("Uint8Clamped"), block: 3, offset: 10_000, length: 50_000 };
  const all = viewName([0, 0, 0, 65_536], longest);
  assert.match(all, /^[A-Za-z0-9_]{1,32}$/);
  const names = new Set();
  const keys = new Set();
  for (let number = 0; number < KINDS.length; number += 1) {
    for (let block = 0; block < 2; block += 1) {
      for (const [offset, length] of [[0, 1], [0, 2], [8, 1], [16, 0]]) {
        const view = { kind: number, block, offset, length };
        names.add(viewName([16, 16], view));
        keys.add(viewKey(view));
      }
    }
  }
  assert.equal(names.size, KINDS.length * 8);
  assert.equal(keys.size, KINDS.length * 8);
});

test("a call is spelled as docs/FORMATS.md has it, and room is kept for all of it", () => {
  const call = (name, index, operands, limit) => ({ call: name, kind: 5, index, operands, limit });
  const spelled = [
    [call(0, 3, []), '["load", "v", 3]'],
    [call(1, -1, [-5]), '["store", "v", -1, -5]'],
    [call(8, 0, [1n, -(2n ** 127n)]), `["compareExchange", "v", 0, "1", "${-(2n ** 127n)}"]`],
    [call(9, 0, [0]), '["wait", "v", 0, 0]'],
    [call(9, 0, [0n], 0), '["wait", "v", 0, "0", 0]'],
    [call(10, 0, []), '["notify", "v", 0]'],
    [call(10, 0, [], 2), '["notify", "v", 0, 2]'],
  ];
  for (const [given, text] of spelled) {
    assert.equal(namedCallText("v", given), text);
    assert.ok(textRoom(1, given) > text.length + ",\n      ".length);
  }
});

test("a call's room in a script is counted as long as its text is", () => {
  const long = [2 ** 31 - 1, -(2 ** 31), 2 ** 31, 2 ** 53 - 1, -(2 ** 53 - 1), 5n, -5n, 2n ** 64n];
  const operands = [0, -0, 1, 9, 10, 11, 99, 100, 101, 999_999_999, 1_000_000_000, -1, -9, -10, -100, ...long];
  const view = { kind: kind("Int32"), block: 0, offset: 0, length: 4 };
  for (const operand of operands) {
    const exchange = { call: 2, ...view, index: typeof operand === "bigint" ? 3 : operand, operands: [operand] };
    for (const limit of [undefined, 0, 10, 999]) {
      const made = { ...exchange, limit };
      const moves = 28 + (limit === undefined ? 0 : 20);
      assert.equal(textRoom(1, made), namedCallText("v", made).length + moves, `${operand}, ${limit}`);
    }
  }
});

const trace = (lengths) => ({
  lengths,
  canBlock: [true, false],
  views: [{ name: "Int32", kind: "Int32", block: 0, offset: 0, length: 1 }],
  calls: [[{ text: '["wait", "Int32", 0, 0, 5]', joined: true, answer: "timed-out" }], []],
  moves: [
    { agent: 0, timeUp: false }, { agent: 0, timeUp: false }, { agent: 0, timeUp: true }, { agent: 0, timeUp: false },
  ],
});

test("a script names its blocks, and each view's, whether there is one block or several", () => {
  const agents = [{ block: true, calls: [["wait", "Int32", 0, 0, 5]] }, { block: false, calls: [] }];
  const schedule = [0, 0, { timeout: 0 }, 0];
  const views = [{ name: "Int32", kind: "Int32", block: 0, offset: 0, length: 1 }];
  for (const blocks of [[4], [4, 0]]) {
    assert.deepEqual(JSON.parse(scriptText(trace(blocks))), { blocks, views, agents, schedule });
  }
  const empty = { lengths: [0], canBlock: [true], views: [], calls: [[]], moves: [] };
  assert.deepEqual(JSON.parse(scriptText(empty)), {
    blocks: [0], views: [], agents: [{ block: true, calls: [] }], schedule: [],
  });
});

test("a schedule has 24 moves on a line, an end of a time among them", () => {
  const move = { agent: 15, timeUp: false };
  const end = { agent: 2, timeUp: true };
  const full = Array(24).fill("15").join(", ");
  const rows = [
    [[], "[]"],
    [[end], '[\n    {"timeout": 2}\n  ]'],
    [[move, end, move], '[\n    15, {"timeout": 2}, 15\n  ]'],
    [Array(24).fill(move), `[\n    ${full}\n  ]`],
    [[...Array(48).fill(move), end], `[\n    ${full},\n    ${full},\n    {"timeout": 2}\n  ]`],
  ];
  for (const [moves, text] of rows) assert.equal(scheduleText(moves), text);
});

test("a trace has a line for each event, however many there are, as JSON.stringify writes it", () => {
  const sources = [["", 'an "é".mjs:1:2'], ["", "b.mjs:3:4"]];
  const events = Array.from({ length: 2_500 }, (_, at) => ({
    agent: at % 2, call: at % 999, block: at % 3, byte: at % 701, size: 1 + (at % 8), read: at % 5 > 0,
    write: at % 7 > 0,
    atomic: at % 4 > 1, waiters: at % 11 === 0, source: at % 6 > 2 ? 1 : 0,
  }));
  const lines = events.map(({ agent, call, block, byte, size, read, write, atomic, waiters, source }, event) => {
    const place = sources[agent][source] || null;
    const all = { event, agent, call, does: "read", block, byte, size, read, write, atomic, waiters, source: place };
    return `${JSON.stringify(all)}\n`;
  });
  for (const count of [0, 1, 1_024, 1_025, 2_500]) {
    assert.equal(traceText(logOf(events.slice(0, count)), sources), lines.slice(0, count).join(""));
  }
  const withoutSources = lines.map((line) => line.replace(/"source":.*/, '"source":null}'));
  assert.equal(traceText(logOf(events)), withoutSources.join(""));
});

test("a report has a line for each move, for each block and for each agent", () => {
  assert.equal(reportText(trace([4, 0]), ["00000000", ""]), [
    "0 0 0 begin", "1 0 0 wait", "2 0 0 leave timed-out", "3 0 0 return timed-out",
    "block 0 00000000", "block 1 -", "agent 0 1 of 1", "agent 1 0 of 0", "",
  ].join("\n"));
});

/**
 * The trace of an example whose report has no stuck entry: what was done, read off its report.
 * @param {string} name
 */
function traceOfExample(name) {
  const script = JSON.parse(readFileSync(new URL(`${name}.json`, EXAMPLES), "utf8"));
  const report = readFileSync(new URL(`${name}.report`, EXAMPLES), "utf8");
  const calls = script.agents.map((agent) => agent.calls.map((call) =>
    ({ text: JSON.stringify(call), joined: false, answer: null })));
  for (const line of report.split("\n")) {
    const [, agent, call, what, answer] = line.split(" ");
    if (what === "wait") calls[agent][call].joined = true;
    if (what === "act" || what === "leave") calls[agent][call].answer = answer;
  }
  const moves = script.schedule.map((move) =>
    typeof move === "number" ? { agent: move, timeUp: false } : { agent: move.timeout, timeUp: true });
  const bytes = report.split("\n").filter((line) => line.startsWith("block")).map((line) => line.split(" ")[2]);
  return { report, trace: { calls, moves }, bytes };
}

test("the reports of the project's examples are written as they are there", () => {
  const names = readdirSync(EXAMPLES).filter((file) => file.endsWith(".report")).map((file) => file.slice(0, -7));
  const examples = names.map(traceOfExample).filter((example) => !example.report.includes("stuck"));
  assert.ok(examples.length >= 4, `${examples.length} examples have no stuck entry`);
  for (const example of examples) assert.equal(reportText(example.trace, example.bytes), example.report);
});

test("the first line that differs is shown with both sides", () => {
  assert.equal(firstDifference("a\nb\n", "a\nb\n"), undefined);
  assert.deepEqual(firstDifference("a\nb\n", "a\nc\n"), { line: 2, recorded: "b", replayed: "c" });
  assert.deepEqual(firstDifference("a\n", "a"), { line: 2, recorded: "", replayed: "(no line)" });
});

test("a brief group sends bytes and answers of failing runs alone, and what a check needs of each", async (context) => {
  const path = fileURLToPath(new URL("../../bench/programs/lost-wake-up.mjs", import.meta.url));
  const group = await groupOf(context, path, { isBrief: true });
  const seeds = Array.from({ length: 12 }, (_, at) => ({ seed: at + 1, whole: true }));
  const outcomes = [];
  await group.run(seeds, (outcome) => outcomes.push(outcome));
  assert.deepEqual([...new Set(outcomes.map(({ fails }) => fails))].sort(), [false, true]);
  for (const { fails, answers, bytes, script, report } of outcomes) {
    assert.deepEqual([answers !== undefined, bytes !== undefined], [fails, fails]);
    assert.ok(script !== undefined && report !== undefined);
  }
});
