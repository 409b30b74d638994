// Texts that are made by calls that are remembered from run to run: they are the same as without.

import assert from "node:assert/strict";
import { test } from "node:test";
import { Log } from "../../lib/memory/log.mjs";
import { Records } from "../../lib/memory/records.mjs";
import { namedCallText, viewName } from "../../lib/memory/spelling.mjs";
import { Names } from "../../lib/options/names.mjs";
import { KnownCalls } from "../../lib/run/script/known-calls.mjs";
import { transcriptOf } from "../../lib/run/script/transcript.mjs";
import { KINDS } from "../../script/kinds.mjs";
import { reportText } from "../../script/report.mjs";
import { scriptText } from "../../script/text.mjs";

const LENGTHS = [32, 32];
const INT32 = 5;
const BIG_INT_64 = 9;
const [LOAD, COMPARE_EXCHANGE, WAIT] = [0, 8, 9];
const VIEW = { kind: INT32, block: 0, offset: 0, length: 8 };
const CALL = { call: COMPARE_EXCHANGE, ...VIEW, index: 1, operands: [1, 2], limit: undefined };
const WAITING = { ...CALL, call: WAIT, operands: [1], limit: 7 };

/** Calls with what they returned, each of which differs from one of the first two in one thing. */
const MADE = [
  { call: CALL, answer: 1 },
  { call: WAITING, answer: "ok" },
  { call: { ...CALL, kind: INT32 + 1 }, answer: 1 },
  { call: { ...CALL, block: 1 }, answer: 1 },
  { call: { ...CALL, offset: 4 }, answer: 1 },
  { call: { ...CALL, length: 7 }, answer: 1 },
  { call: { ...CALL, index: 2 }, answer: 1 },
  { call: { ...CALL, index: 2 ** 32 + 1 }, answer: 1 },
  { call: { ...CALL, operands: [3, 2] }, answer: 1 },
  { call: { ...CALL, operands: [1, 3] }, answer: 1 },
  { call: { ...CALL, operands: [1, 2 ** 32 + 2] }, answer: 1 },
  { call: { ...CALL, operands: [1n, 2n] }, answer: 1 },
  { call: { ...CALL, operands: [5n, 2n] }, answer: 1 },
  { call: { ...CALL, operands: [1n, 5n] }, answer: 1 },
  { call: CALL, answer: 2 },
  { call: CALL, answer: 2 ** 32 + 1 },
  { call: CALL, answer: 1n },
  { call: CALL, answer: 2n },
  // It is looked for in the same place as the call on the next element that returned 1.
  { call: CALL, answer: 31 ** 3 + 1 },
  { call: CALL, answer: "RangeError" },
  { call: CALL, answer: "TypeError" },
  { call: CALL },
  { call: { ...CALL, call: LOAD, operands: [] }, answer: 1 },
  { call: { ...WAITING, limit: 8 }, answer: "ok" },
  { call: { ...WAITING, limit: 2 ** 32 + 7 }, answer: "ok" },
  { call: { ...WAITING, limit: 0 }, answer: "ok" },
  { call: { ...WAITING, limit: undefined }, answer: "ok" },
  { call: WAITING, answer: "not-equal" },
  { call: WAITING, answer: "ok", joins: true },
  { call: { ...CALL, kind: BIG_INT_64, length: 4, operands: [1n, 2n] }, answer: 3n },
];

/**
 * A run of one agent that makes some calls.
 * @param {typeof MADE} made
 * @param {import("../../lib/options/names.mjs").NamedView[]} names
 */
function runOf(made, names = []) {
  const records = new Records(Records.memory());
  const log = new Log(Log.memory(made.length), new Int32Array(1), 0);
  made.forEach(({ call, answer, joins }, position) => {
    records.begin(position, call);
    if (joins) records.join(position);
    if (answer !== undefined) records.answer(position, answer);
    log.append(joins ? 1 : 0, 0, call.call, 0, position, call.block, 0, 4, call, 0);
  });
  return { log, records: [records], lengths: LENGTHS, canBlock: [true], names: new Names(names) };
}

/** @param {import("../../lib/run/script/transcript.mjs").TranscriptSource} run */
function textsOf(run) {
  const transcript = transcriptOf(run, []);
  return [scriptText(transcript), reportText(transcript, ["00", "00"])];
}

const NAMES = [{ name: "LOCK", kind: INT32, block: 0, offset: 4, length: 1 }];

for (const [what, names] of [["without names", []], ["with a name", NAMES]]) {
  test(`calls that differ in anything have texts of their own, ${what}`, () => {
    const known = new KnownCalls();
    for (let time = 0; time < 2; time += 1) {
      for (const made of MADE) {
        const run = runOf([made], names);
        assert.deepEqual(textsOf({ ...run, known }), textsOf(run));
      }
    }
  });
}

test("a call that is remembered has its own text and its own view", () => {
  const known = new KnownCalls();
  for (const made of [...MADE, ...MADE]) {
    const { call } = made;
    const [script] = textsOf({ ...runOf([made]), known });
    const { views, agents: [{ calls }] } = JSON.parse(script);
    const { kind, block, offset, length } = call;
    const name = viewName(LENGTHS, call);
    assert.deepEqual(views, [{ name, kind: KINDS[kind], block, offset, length }]);
    assert.deepEqual(calls, [JSON.parse(namedCallText(name, call))]);
  }
});

test("views come in the order of a run's own first calls, whatever other runs have used", () => {
  const known = new KnownCalls();
  const [first, ...others] = MADE.filter(({ answer }) => answer === 1);
  for (const made of [[first, ...others], [...others].reverse(), [first], [first, first], others]) {
    const [script] = textsOf({ ...runOf(made), known });
    const names = made.map(({ call }) => viewName(LENGTHS, call));
    assert.deepEqual(JSON.parse(script).views.map(({ name }) => name), [...new Set(names)]);
  }
});

test("more calls than are remembered have their texts too", () => {
  const known = new KnownCalls();
  for (let from = 0; from < 10_000; from += 1_000) {
    const run = runOf(Array.from({ length: 1_000 }, (_, at) => ({ call: CALL, answer: from + at })));
    assert.deepEqual(textsOf({ ...run, known }), textsOf(run));
  }
});
