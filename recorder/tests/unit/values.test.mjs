// Kinds, operands and the generator: the parts that know no run.

import assert from "node:assert/strict";
import { test } from "node:test";
import { countFrom, heldOperand, indexFrom, limitOf, operandFrom, timeoutFrom } from "../../lib/agent/conversions.mjs";
import { Chance } from "../../lib/agent/time.mjs";
import { Random } from "../../lib/memory/random.mjs";
import { Records } from "../../lib/memory/records.mjs";
import { CALLS, SCRIPT_KINDS as KINDS, kindOf } from "../../script/kinds.mjs";
import { shown } from "../../script/operands.mjs";

test("each of the eleven typed arrays that scripts can have has its kind, and nothing else has one", () => {
  const names = KINDS.map((_, number) => KINDS[kindOf(new globalThis[`${KINDS[number]}Array`](1))]);
  assert.deepEqual(names, KINDS);
  assert.equal(KINDS.length, 11);
  class Words extends Int32Array {}
  assert.equal(KINDS[kindOf(new Words(1))], "Int32");
  const others = [undefined, null, 5, "Int32Array", [], {}, { [Symbol.toStringTag]: "Int32Array" }];
  const halves = typeof Float16Array === "undefined" ? [] : [new Float16Array(1)];
  for (const other of [...others, ...halves, new DataView(new ArrayBuffer(4)), new SharedArrayBuffer(4)]) {
    assert.equal(kindOf(other), -1);
  }
});

test("a call takes as much as its function of Atomics does, and only waits and notifies take a limit", () => {
  for (const { name, operands } of CALLS) {
    // The view, the index, and what comes after them.
    assert.equal(Atomics[name].length, 2 + operands + (name === "wait" || name === "notify" ? 1 : 0), name);
  }
  assert.equal(CALLS.length, 11);
});

const asked = (kind, more = {}) => ({
  call: 1, kind: KINDS.indexOf(kind), block: 0, offset: 0, length: 4, index: 0, operands: [], limit: undefined, ...more,
});
const most = Number.MAX_SAFE_INTEGER;

/** @param {(value: any) => unknown} convert @param {[any, unknown][]} pairs of what is given and what comes of it */
function checkEach(convert, pairs) {
  for (const [given, wanted] of pairs) assert.ok(Object.is(convert(given), wanted), `${typeof given} ${shown(given)}`);
}

test("operands are whole Numbers, infinite ones or BigInts, or become such", () => {
  const number = (value) => operandFrom(value, asked("Int32"));
  const big = (value) => operandFrom(value, asked("BigInt64"));
  checkEach(number, [
    [0, 0], [1, 1], [-1, -1], [most, most], [-most, -most], [-0, 0], [0.5, 0], [-0.5, 0], [NaN, 0], [undefined, 0],
    [null, 0], [true, 1], ["1", 1], [{}, 0], [[], 0], [() => 1, 0], [{ valueOf: () => 1 }, 1], [-2.5, -2],
    [Infinity, Infinity], ["-Infinity", -Infinity], [most + 1, most + 1], [`${-most - 1}`, -most - 1],
  ]);
  const bigs = [0n, -1n, 2n ** 127n - 1n, -(2n ** 127n)];
  for (const convert of [number, big]) checkEach(convert, bigs.map((value) => [value, value]));
  const wide = 2n ** 127n;
  checkEach(big, [[true, 1n], [false, 0n], ["1", 1n], [[], 0n], [{ valueOf: () => 1n }, 1n], [`${wide}`, wide]]);
  for (const value of [Symbol("s"), 2n ** 127n]) assert.throws(() => number(value), TypeError);
  for (const value of [Symbol("s"), 0.5, NaN, most + 1, undefined, null, () => 1]) {
    assert.throws(() => big(value), value instanceof Function ? SyntaxError : TypeError);
  }
});

test("a script holds an operand, or else what elements take of it", () => {
  checkEach(heldOperand, [
    [most, most], [-most, -most], [most + 1, 0], [-(2 ** 53) - 2, -2], [2 ** 60 + 2 ** 20, 2 ** 20], [1e300, 0],
    [Infinity, 0], [-Infinity, 0], [2n ** 127n - 1n, 2n ** 127n - 1n], [-(2n ** 127n), -(2n ** 127n)],
    [2n ** 127n + 5n, 5n], [-(2n ** 127n) - 1n, -1n], [2n ** 200n + 2n ** 63n, -(2n ** 63n)],
  ]);
});

test("an operand is converted only if the checks before it pass", () => {
  const value = { valueOf: () => assert.fail("its code was called") };
  for (const index of [-1, 4]) {
    assert.throws(() => operandFrom(value, asked("Int32", { index })), RangeError);
  }
  const second = { call: 8, operands: [1n] };
  assert.throws(() => operandFrom(value, asked("Int32", second)), TypeError);
  assert.throws(() => operandFrom(value, asked("Float64")), TypeError);
  assert.throws(() => indexFrom(value, asked("Float64")), TypeError);
  assert.throws(() => timeoutFrom(value, asked("Int32", { call: 9, operands: [1n] })), TypeError);
  assert.throws(() => countFrom(value, asked("Int16", { call: 10 })), TypeError);
});

test("an index is a safe whole Number, or becomes one, or lies outside", () => {
  const index = (value, length = 4) => indexFrom(value, asked("Int32", { length }));
  checkEach(index, [
    [0, 0], [5, 5], [-1, -1], [most, most], [-0, 0], [undefined, 0], ["0", 0], [0.5, 0], [NaN, 0], [null, 0],
    ["-1.5", -1],
  ]);
  assert.equal(index("1", 0), 1);
  assert.throws(() => index(1n), TypeError);
  for (const value of [Infinity, "-Infinity", most + 1, `${-most - 1}`]) assert.throws(() => index(value), RangeError);
});

test("a count is none if it bounds nothing: undefined, and more than a script holds", () => {
  const count = (value) => countFrom(value, asked("Int32", { call: 10 }));
  checkEach(count, [[undefined, undefined], [Infinity, undefined], ["Infinity", undefined], [0, 0], [3, 3], [-2, -2]]);
  checkEach(count, [[0.5, 0], [NaN, 0], [-Infinity, 0], ["1", 1], [null, 0], [-0, 0]]);
  checkEach(count, [[most, most], [most + 1, undefined], ["1e300", undefined], [-most - 1, 0]]);
  assert.throws(() => count(1n), TypeError);
});

test("a timeout is none for undefined, NaN and Infinity, and of any other Number the whole part", () => {
  const timeout = (value) => timeoutFrom(value, asked("Int32", { call: 9, operands: [0] }));
  const limit = (value) => limitOf(timeout(value));
  checkEach(limit, [undefined, NaN, Infinity, {}, "ten"].map((value) => [value, undefined]));
  checkEach(limit, [[0, 0], [50, 50], [0.5, 0], [-0.5, 0], [-3, -3], [1e300, most], [-Infinity, -most]]);
  checkEach(limit, [["1.5", 1], [null, 0], [true, 1], ["1e300", most]]);
  checkEach(timeout, [["1.5", 1.5], [0.5, 0.5], [null, 0]]);
  assert.throws(() => timeout(1n), TypeError);
});

test("values are shown without calling their code", () => {
  assert.equal(shown({ toString: () => assert.fail("its code was called") }), "an object");
  const values = [1.5, -0, 5n, "a\nb", null, undefined];
  assert.deepEqual(values.map(shown), ["1.5", "-0", "5n", '"a\\nb"', "null", "undefined"]);
});

test("the generator is xoshiro128**: its first numbers from the words 1, 2, 3, 4, worked out by hand", () => {
  const random = new Random(Int32Array.of(1, 2, 3, 4));
  assert.deepEqual([random.next(), random.next(), random.next(), random.next()], [11520, 0, 5927040, 70819200]);
});

test("seeds start rows that differ, and a seed always the same", () => {
  const row = (seed) => {
    const random = new Random(new Int32Array(4));
    random.seed(seed);
    return Array.from({ length: 4 }, () => random.next()).join(" ");
  };
  const seeds = [0, 1, 2, 3, 2 ** 32, 2 ** 32 + 1, Number.MAX_SAFE_INTEGER];
  assert.equal(new Set(seeds.map(row)).size, seeds.length);
  assert.equal(row(7), row(7));
});

test("the generator draws each number below a count about as often", () => {
  const random = new Random(new Int32Array(4));
  random.seed(1);
  const drawn = [0, 0, 0];
  for (let time = 0; time < 30_000; time += 1) drawn[random.below(3)] += 1;
  for (const often of drawn) assert.ok(Math.abs(often - 10_000) < 500, `${drawn}`);
});

test("what two agents draw at the same seed isn't alike, nor is it what an agent chooses", () => {
  const chances = [new Chance(), Object.assign(new Chance(), { agent: 1 })];
  for (const at of [0, 1, 2]) {
    /** How often each of 16 pairs of quarters is drawn: 250 times each, more or less. */
    const pairs = Array(16).fill(0);
    for (let seed = 1; seed <= 4_000; seed += 1) {
      const [one, other] = chances.map((chance) => {
        chance.begin(seed);
        return Math.floor(4 * Array.from({ length: at + 1 }, () => chance.fraction())[at]);
      });
      pairs[4 * one + other] += 1;
    }
    for (const often of pairs) assert.ok(often > 180 && often < 320, `${pairs}`);
  }
  const chosen = new Random(new Int32Array(4));
  chosen.seedApart(1, 0);
  chances[0].begin(1);
  assert.notEqual(chances[0].random.next(), chosen.next());
});

test("records keep calls and answers as they were written", () => {
  const records = new Records(Records.memory());
  const most = 2n ** 127n - 1n;
  const view = { kind: 9, block: 3, offset: 65_528, length: 1 };
  const calls = [
    { call: 0, ...view, index: 0, operands: [], limit: undefined },
    { call: 8, ...view, index: -5, operands: [most, -(2n ** 127n)], limit: undefined },
    { call: 8, ...view, index: Number.MAX_SAFE_INTEGER, operands: [-1n, 2n ** 64n], limit: undefined },
    { call: 3, ...view, index: 1, operands: [-Number.MAX_SAFE_INTEGER], limit: undefined },
    { call: 9, ...view, index: 1, operands: [0], limit: 0 },
    { call: 10, ...view, index: 1, operands: [], limit: -7 },
  ];
  const answers = [5, most, -(2n ** 64n), "RangeError", "timed-out", 0];
  const spelled = ["5", `${most}n`, `${-(2n ** 64n)}n`, "RangeError", "timed-out", "0"];
  calls.forEach((call, position) => records.begin(position, call));
  records.join(4);
  assert.deepEqual(records.doneAt(4), { joined: true, answer: null });
  answers.forEach((answer, position) => records.answer(position, answer));
  assert.deepEqual(calls.map((_, position) => records.callAt(position)), calls);
  assert.deepEqual(calls.map((_, position) => records.doneAt(position).answer), spelled);
});
