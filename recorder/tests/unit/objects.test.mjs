// Modules of objects: their calls, the texts of outcomes, and the monitor of histories.

import assert from "node:assert/strict";
import { describe, test } from "node:test";
import { isDeepStrictEqual } from "node:util";
import { sizesOf } from "../../lib/every/every-use.mjs";
import { verdictOf } from "../../lib/objects/history.mjs";
import { historyTable } from "../../lib/objects/history-table.mjs";
import { Monitor, NOT_JUDGED, NO_ORDER } from "../../lib/objects/monitor.mjs";
import { callsOf } from "../../lib/objects/object-calls.mjs";
import { NoOutcome, outcomeText } from "../../lib/objects/outcome-text.mjs";
import { historyOf } from "../../lib/run/ending/run-history.mjs";
import { blocked } from "../../object.mjs";

describe("the calls of `operations`", () => {
  test("a value is an argument, an array all arguments, and an empty list one call without any", () => {
    const calls = callsOf({ push: [1, [2, 3], [[4]]], pop: [], size: [[]] });
    assert.deepEqual(calls.map(({ text }) => text), ["push(1)", "push(2, 3)", "push([4])", "pop()", "size()"]);
    assert.deepEqual(calls.map(({ operation }) => operation), [0, 0, 0, 1, 2]);
  });

  test("an operation after others is bound, and they free it", () => {
    const unlock = { after: ["lock", "tryLock"], agents: [1], mayFail: false };
    const calls = callsOf({ lock: [], tryLock: [], unlock });
    assert.deepEqual(calls.map(({ isBound, frees }) => [isBound, frees]), [[false, [2]], [false, [2]], [true, []]]);
    assert.deepEqual([calls[2].agents, calls[2].mayFail, calls[0].mayFail], [[1], "returns false", undefined]);
    assert.equal(callsOf({ pop: { mayFail: undefined } })[0].mayFail, "returns undefined");
  });

  for (const [operations, why] of /** @type {[unknown, RegExp][]} */ ([
    [undefined, /must be an object/], [[], /must be an object/], [{}, /names no method/],
    [{ push: 1 }, /list of calls/],
    [{ push: { run: 1 } }, /`run` that is no function/], [{ push: { arg: [] } }, /has a member arg/],
    [{ push: { after: 1 } }, /name of another operation/],
    [{ push: { after: "lock" } }, /`lock`, which is no operation/],
    [{ push: { agents: 0 } }, /list of agents/], [{ push: { agents: [-1] } }, /no number/],
    [{ push: { args: 1 } }, /list of calls/], [{ [Symbol.iterator]: [] }, /no symbol/],
    [{ push: Array.from({ length: 1_001 }, (_, at) => at) }, /1000 are the most/],
  ])) test(`${why} is said`, () => assert.throws(() => callsOf(operations), why));
});

/** @param {() => void} body @returns {unknown} what it throws */
function thrownBy(body) {
  try {
    return body();
  } catch (error) {
    return error;
  }
}

class Pair {
  constructor(/** @type {unknown} */ one) {
    this.one = one;
  }
}

/** @type {any[]} */
const CYCLE = [1];
CYCLE.push(CYCLE);

const VALUES = [
  undefined, null, true, 0, -0, NaN, 1, "1", 1n, "", [], [undefined], [,], [1, [2]], {}, { a: 1 }, { a: undefined },
  { b: 2, a: 1 }, { a: 1, b: 2 }, new Map([[1, 2]]), new Map([[2, 1], [1, 2]]), new Map([[1, 2], [2, 1]]),
  new Set([1, 2]), new Set([2, 1]), new Set(["1"]), new Pair(1), new Pair(2), { one: 1 }, new Date(5), new Date(6),
  /a/g, /a/, CYCLE, { "a: 1, b": 2 }, { "": 1 }, { "b": { a: 1 } },
  Object.create(null), new Error("a"), new TypeError("a"), new Error("b"), Object(1), Object("1"), Symbol.for("a"),
  Object.assign([1], { more: 2 }),
];

describe("the text of an outcome", () => {
  test("two results have one exactly if they are equal by their structure", () => {
    for (const one of VALUES) {
      for (const other of VALUES) {
        const texts = [one, other].map((value) => outcomeText(value, false));
        assert.equal(texts[0] === texts[1], isDeepStrictEqual(one, other), texts.join(", "));
      }
    }
  });

  test("an error goes by its name and its message, and a model that waits has a result of its own", () => {
    assert.equal(outcomeText(new RangeError("too far"), true), "throws RangeError: too far");
    assert.equal(outcomeText(5, true), "throws 5");
    assert.match(outcomeText(thrownBy(() => assert(1 > 2)), true), /^throws AssertionError: $/);
    assert.equal(outcomeText(blocked, false), "has to wait");
  });

  for (const value of [() => {}, Promise.resolve(), new Int32Array(1), new SharedArrayBuffer(1), new WeakMap(),
    new Proxy({}, {}), Symbol("own"), { get one() { return 1; } }, [() => {}]]) {
    test(`${String(Object.prototype.toString.call(value))} has none`, () =>
      assert.throws(() => outcomeText(value, false), NoOutcome));
  }
});

/** A place for a number: put(0), put(1), take. Put waits if there is one, and take if there is none. */
const CELL = {
  first: 0,
  /** @type {(state: number, call: number) => any} */
  step(state, call) {
    if (call < 2) return state === 0 ? { isBlocked: false, states: [call + 1], outcome: 2 } : { isBlocked: true };
    return state === 0 ? { isBlocked: true } : { isBlocked: false, states: [0], outcome: state - 1 };
  },
};
const NEVER_FAILS = [undefined, undefined, undefined];
const [PUT, TAKE, DONE] = [0, 2, 2];

describe("the monitor", () => {
  test("an operation that is open may have taken effect, and one that waits has not", () => {
    const monitor = new Monitor(CELL, 2, NEVER_FAILS);
    const taking = monitor.begins(monitor.first, 0, TAKE);
    assert.equal(monitor.isRightlyBlocked(taking), true);
    const both = monitor.begins(taking, 1, PUT);
    assert.equal(monitor.isRightlyBlocked(both), false);
    assert.deepEqual(monitor.outcomesIn(both, 0), [0]);
    const put = monitor.ends(both, 1, DONE);
    const over = monitor.ends(put, 0, 0);
    assert.equal(over, monitor.first);
    assert.equal(monitor.ends(put, 0, 1), NO_ORDER);
    assert.equal(monitor.ends(taking, 0, 0), NO_ORDER);
    assert.equal(monitor.begins(NO_ORDER, 0, PUT), NO_ORDER);
  });

  test("what may fail has its outcome without an effect, and never waits rightly", () => {
    const monitor = new Monitor(CELL, 2, [undefined, undefined, 7]);
    const taking = monitor.begins(monitor.first, 0, TAKE);
    assert.equal(monitor.isRightlyBlocked(taking), false);
    assert.equal(monitor.ends(taking, 0, 7), monitor.first);
  });

  test("what goes by chance may lead to several states", () => {
    const step = (/** @type {number} */ state, /** @type {number} */ call) =>
      ({ isBlocked: false, states: call === PUT ? [1, 2] : [0], outcome: call === PUT ? DONE : state });
    const monitor = new Monitor(/** @type {any} */ ({ first: 0, step }), 1, NEVER_FAILS);
    const put = monitor.ends(monitor.begins(monitor.first, 0, PUT), 0, DONE);
    const taking = monitor.begins(put, 0, TAKE);
    assert.deepEqual(monitor.outcomesIn(taking, 0), [1, 2]);
    assert.equal(monitor.ends(taking, 0, 1), monitor.first);
  });

  test("agents that are exchanged have each other's operations", () => {
    const monitor = new Monitor(CELL, 3, NEVER_FAILS);
    const one = monitor.begins(monitor.begins(monitor.first, 0, PUT), 2, TAKE);
    const other = monitor.begins(monitor.begins(monitor.first, 1, PUT), 2, TAKE);
    assert.equal(monitor.exchanged(one, 0, 1), other);
    assert.equal(monitor.exchanged(monitor.exchanged(one, 0, 2), 0, 2), one);
  });

  test("a set that is too large, or needs too many states, isn't judged", () => {
    const small = new Monitor(CELL, 2, NEVER_FAILS, 1);
    assert.equal(small.begins(small.first, 0, PUT), NOT_JUDGED);
    const unknown = new Monitor({ first: 0, step: () => undefined }, 2, NEVER_FAILS);
    assert.equal(unknown.begins(unknown.first, 0, PUT), NOT_JUDGED);
    assert.equal(unknown.ends(NOT_JUDGED, 0, 0), NOT_JUDGED);
  });
});

/** @param {string[]} texts */
const outcomesOf = (texts) => ({ texts, numberOf: (/** @type {string} */ text) => texts.indexOf(text) });

/** A cell as above, with its words. */
const watched = () => ({
  calls: callsOf({ put: [0, 1], take: [] }), monitor: new Monitor(CELL, 2, NEVER_FAILS),
  outcomes: outcomesOf(["returns 0", "returns 1", "returns undefined"]),
});

/** Two events of agent 1. */
const LOG = /** @type {any} */ ({ length: 2, whatAt: () => 0, agentAt: () => 1 });

describe("the history of a run", () => {
  test("has operations without an act in the order in which their agent makes them", () => {
    const event = 1;
    const marks = [{ call: 0, event }, { outcome: "a", event }, { call: 1, event }, { outcome: "b", event }];
    const events = historyOf([marks, []], LOG, () => undefined);
    assert.deepEqual(events.map(({ call, outcome }) => call ?? outcome), [0, "a", 1, "b"]);
  });

  test("has an operation from its first act to its last one", () => {
    const own = [{ call: 0, event: 0 }, { outcome: "a", event: 2 }];
    const other = [{ call: 1, event: 1 }, { outcome: "b", event: 1 }];
    const events = historyOf([other, own], LOG, () => undefined);
    assert.deepEqual(events.map(({ agent, call, outcome }) => [agent, call ?? outcome]),
      [[1, 0], [0, 1], [0, "b"], [1, "a"]]);
  });
});

describe("a history", () => {
  const begins = (/** @type {number} */ agent, /** @type {number} */ call) => ({ agent, call });
  const ends = (/** @type {number} */ agent, /** @type {string} */ outcome) => ({ agent, outcome });

  test("that fits changes nothing", () => {
    const events = [begins(0, 1), ends(0, "returns undefined"), begins(1, 2), ends(1, "returns 1")];
    assert.equal(verdictOf(watched(), events, "finished"), undefined);
  });

  test("that doesn't is shown up to where it doesn't", () => {
    const events = [begins(0, 1), begins(1, 2), ends(1, "returns 0"), ends(0, "returns undefined")];
    const { about = "", detail = "", ending } = verdictOf(watched(), events, "finished") ?? {};
    assert.equal(ending, "not linearizable");
    assert.deepEqual(detail.split("\n"), [
      "take() returns 0, and in every order that fits it returns 1", "agent 0  agent 1", "put(1)",
      "..       take() returns 0",
    ]);
    assert.match(about, /^`take`/);
  });

  test("at rest, whose operation rightly waits, isn't a failure; one that could go on is", () => {
    assert.equal(verdictOf(watched(), [begins(0, 2)], "deadlock")?.ending, "blocked");
    assert.equal(verdictOf(watched(), [begins(0, 2)], "limit")?.ending, "blocked");
    const events = [begins(0, 2), begins(1, 1), ends(1, "returns undefined")];
    assert.equal(verdictOf(watched(), events, "deadlock")?.ending, "lost wake-up");
    assert.equal(verdictOf(watched(), events, "limit"), undefined);
    assert.equal(verdictOf(watched(), [], "deadlock"), undefined);
  });

  test("has a row for an operation in which nothing else happens, and two for others", () => {
    const events = [begins(0, 1), begins(1, 2), ends(1, "returns 0"), ends(0, "returns undefined"), begins(1, 0)];
    assert.deepEqual(historyTable(watched().calls, events), [
      "agent 0               agent 1", "put(1)", "..                    take() returns 0", ".. returns undefined",
      "                      put(0)",
    ]);
  });
});

test("sizes grow, by agents and operations together; what is given stays", () => {
  assert.deepEqual(sizesOf({}).slice(0, 6).map(({ agents, each }) => [agents, each]),
    [[2, 1], [2, 2], [3, 1], [2, 3], [3, 2], [4, 1]]);
  assert.deepEqual(sizesOf({ agents: 3, each: 2 }), [{ agents: 3, each: 2 }]);
  assert.deepEqual(sizesOf({ agents: 3 }).slice(0, 2), [{ agents: 3, each: 1 }, { agents: 3, each: 2 }]);
  assert.deepEqual(sizesOf({ each: "any" }).slice(0, 2), [{ agents: 2, each: "any" }, { agents: 3, each: "any" }]);
});
