// What the language converts, the recorder converts: the same answers and errors as the engine's own Atomics, with the
// same steps of the agents' code in the same order, and a script that has what comes of the conversions.

import assert from "node:assert/strict";
import { readFileSync } from "node:fs";
import { join } from "node:path";
import { after, before, describe, test } from "node:test";
import { explore, record } from "../../recorder.mjs";
import { KIND_NAMES, found } from "../agents/conversions.mjs";
import { CASE_WORD } from "../helpers/case-word.mjs";
import { Cases } from "../helpers/cases.mjs";
import { agentsIn, agentsPath, fileIn, temporaryFolder } from "../helpers/common.mjs";
import { CHECKER } from "../helpers/needs.mjs";

/** With `everywhere` no pilots are made first. `record` throws if sabsim doesn't replay the script to the report. */
const HOW = { agents: 1, buffers: [64], sabsim: CHECKER, seconds: 60, everywhere: true };

/**
 * Records agents of a body.
 * @param {import("node:test").TestContext} context
 * @param {string} body
 * @param {object} [options]
 */
const recordBody = (context, body, options = {}) =>
  record({ ...HOW, module: agentsIn(temporaryFolder(context), body), ...options });

/** @param {{ script: string }} outcome @returns {any[][][]} the calls of each agent */
const callsOf = ({ script }) => JSON.parse(script).agents.map(({ calls }) => calls);

describe("each argument at each place gives what the engine gives", () => {
  const FLOATS = ["Uint8ClampedArray", "Float32Array", "Float64Array"];
  const INTEGERS = KIND_NAMES.filter((kind) => !FLOATS.includes(kind));

  /** What an agent finds on some memory, and the run. */
  async function foundByAgent(context, whose, kinds) {
    const file = join(temporaryFolder(context), "found.json");
    const buffers = kinds.slice(0, 4).map(() => 64);
    const own = { module: agentsPath("conversions"), args: [whose, file, ...kinds], unrecorded: "allow" };
    const outcome = await record({ ...HOW, buffers, ...own });
    assert.equal(outcome.ending, "finished", outcome.detail);
    return { outcome, results: JSON.parse(readFileSync(file, "utf8")) };
  }

  for (const kinds of [...INTEGERS.map((kind) => [kind]), FLOATS]) {
    test(`on recorded memory, of ${kinds.join(", ")}`, async (context) => {
      const { outcome, results } = await foundByAgent(context, "recorded", kinds);
      assert.deepEqual(results, kinds.map((kind) => found(Atomics, kind, new SharedArrayBuffer(64))));
      assert.deepEqual(outcome.bytes, results.map(({ bytes }) => Buffer.from(bytes).toString("hex")));
      if (kinds !== FLOATS) assert.ok(callsOf(outcome)[0].length > 100);
    });
  }

  for (const [whose, Kind] of Object.entries({ shared: SharedArrayBuffer, private: ArrayBuffer })) {
    test(`on ${whose} memory of the program's own`, async (context) => {
      const { outcome, results } = await foundByAgent(context, whose, KIND_NAMES);
      assert.deepEqual(results, KIND_NAMES.map((kind) => found(Atomics, kind, new Kind(64))));
      assert.equal(callsOf(outcome)[0].length, 1);
    });
  }
});

describe("a script has what comes of the conversions", () => {
  /** A call, what it returns, and the call in the script; none if a conversion throws. */
  const TABLE = [
    ["store(words, 0, '5')", "5", ["store", "Int32", 0, 5]],
    ["store(words, undefined, 251.4)", "251", ["store", "Int32", 0, 251]],
    ["store(words, -0, -0)", "0", ["store", "Int32", 0, 0]],
    ["store(words, '0', -0.9)", "0", ["store", "Int32", 0, 0]],
    ["store(words, null)", "0", ["store", "Int32", 0, 0]],
    ["store(words, 0.9, NaN)", "0", ["store", "Int32", 0, 0]],
    ["store(words, [1], true)", "1", ["store", "Int32", 1, 1]],
    ["add(words, '1', { valueOf: () => '-2.5' })", "1", ["add", "Int32", 1, -2]],
    ["sub(words, 1, new Date(7))", "-1", ["sub", "Int32", 1, 7]],
    ["compareExchange(words, 1, '-8', [3])", "-8", ["compareExchange", "Int32", 1, -8, 3]],
    ["load(words, '1')", "3", ["load", "Int32", 1]],
    ["wait(words, 1, 3.5, '1.5')", "timed-out", ["wait", "Int32", 1, 3, 1]],
    ["wait(words, 1, 3, null)", "timed-out", ["wait", "Int32", 1, 3, 0]],
    ["wait(words, 1, 3, -Infinity)", "timed-out", ["wait", "Int32", 1, 3, -Number.MAX_SAFE_INTEGER]],
    ["wait(words, 1, Infinity, {})", "not-equal", ["wait", "Int32", 1, 0]],
    ["wait(words, 1, 2 ** 32 + 4, '1')", "not-equal", ["wait", "Int32", 1, 2 ** 32 + 4, 1]],
    ["wait(words, 1, -(2 ** 60) - 2 ** 20, 1)", "not-equal", ["wait", "Int32", 1, -(2 ** 20), 1]],
    ["store(words, 3, 2 ** 60 + 2 ** 20)", "1152921504607895600", ["store", "Int32", 3, 2 ** 20]],
    ["store(words, 3, -Infinity)", "-Infinity", ["store", "Int32", 3, 0]],
    ["exchange(words, 3, '1e300')", "0", ["exchange", "Int32", 3, 0]],
    ["compareExchange(words, 3, -Infinity, -(2 ** 53) - 2)", "0", ["compareExchange", "Int32", 3, 0, -2]],
    ["add(words, 3, Infinity)", "-2", ["add", "Int32", 3, 0]],
    ["notify(words, true, '2')", "0", ["notify", "Int32", 1, 2]],
    ["notify(words, 1, null)", "0", ["notify", "Int32", 1, 0]],
    ["notify(words, 1, -Infinity)", "0", ["notify", "Int32", 1, 0]],
    ["notify(words, 1, 'Infinity')", "0", ["notify", "Int32", 1]],
    ["notify(words, 1, -2.5)", "0", ["notify", "Int32", 1, -2]],
    ["notify(words, 1, 2 ** 53)", "0", ["notify", "Int32", 1]],
    ["notify(words, 1, '-1e300')", "0", ["notify", "Int32", 1, 0]],
    ["store(bigs, 2, true)", "1", ["store", "BigInt64", 2, "1"]],
    ["exchange(bigs, '2', '0x7fffffffffffffffff')", "1", ["exchange", "BigInt64", 2, "2361183241434822606847"]],
    ["wait(bigs, 2, '-1', '3')", "timed-out", ["wait", "BigInt64", 2, "-1", 3]],
    ["store(bigs, 2, -(2n ** 127n) - 1n)", `${-(2n ** 127n) - 1n}`, ["store", "BigInt64", 2, "-1"]],
    ["compareExchange(bigs, 2, 2n ** 200n - 1n, 2n ** 200n)", "-1", ["compareExchange", "BigInt64", 2, "-1", "0"]],
    ["wait(bigs, 2, 2n ** 200n, 3)", "timed-out", ["wait", "BigInt64", 2, "0", 3]],
    ["load(words, '-1')", "RangeError", ["load", "Int32", -1]],
    ["load(words, '16')", "RangeError", ["load", "Int32", 16]],
    ["load(words, Infinity)", "RangeError", undefined],
    ["load(words, '9007199254740992')", "RangeError", undefined],
    ["load(words, 1n)", "TypeError", undefined],
    ["store(words, 16, 1)", "RangeError", ["store", "Int32", 16, 1]],
    ["store(words, 16, { valueOf: () => fails() })", "RangeError", undefined],
    ["store(words, 0, Symbol())", "TypeError", undefined],
    ["store(words, 0, { valueOf: () => fails() })", "EvalError", undefined],
    ["store(words, 0, 1n)", "TypeError", ["store", "Int32", 0, "1"]],
    ["store(bigs, 0, 1)", "TypeError", ["store", "BigInt64", 0, 1]],
    ["store(bigs, 0, 1.5)", "TypeError", undefined],
    ["store(bigs, 0, 2 ** 53)", "TypeError", undefined],
    ["store(words, 0, 2n ** 127n)", "TypeError", undefined],
    ["store(bigs, 0)", "TypeError", undefined],
    ["store(bigs, 0, 'ten')", "SyntaxError", undefined],
    ["store(floats, { valueOf: () => fails() }, 1)", "TypeError", undefined],
    ["wait(new Int16Array(buffers[0]), { valueOf: () => fails() }, 0, 0)", "TypeError", undefined],
    ["isLockFree('4')", "true", undefined],
    ["isLockFree({ valueOf: () => 3.5 })", "false", undefined],
    ["isLockFree(Symbol())", "TypeError", undefined],
  ];

  test("each of a table, with what it answers", async (context) => {
    const calls = TABLE.map(([code]) => `said.push(answerOf(() => Atomics.${code}));`);
    const outcome = await recordBody(context, `
      const [words, bigs] = [new Int32Array(buffers[0]), new BigInt64Array(buffers[0])];
      const floats = new Float64Array(buffers[0]);
      const fails = () => { throw new EvalError("mine"); };
      const answerOf = (make) => {
        try {
          return String(make());
        } catch (error) {
          return error.name;
        }
      };
      const said = [];
      ${calls.join("\n")}
      throw new Error(JSON.stringify(said));`);
    const said = JSON.parse(/^agent 0 threw Error: (.*)$/m.exec(outcome.detail)[1]);
    assert.deepEqual(said, TABLE.map(([, answer]) => answer));
    assert.deepEqual(callsOf(outcome), [TABLE.map(([,, call]) => call).filter((call) => call !== undefined)]);
  });
});

describe("an index at the edges of what a Number holds exactly", () => {
  const [MOST, BEYOND] = [Number.MAX_SAFE_INTEGER, 2 ** 53];
  const CALLS = {
    load: "load(words, AT)", store: "store(words, AT, 5)", add: "add(words, AT, 1)", notify: "notify(words, AT, 1)",
    compareExchange: "compareExchange(words, AT, 0, 1)", wait: "wait(words, AT, 1, 0)",
  };

  /** What the engine's own Atomics does with an index. @param {string} code @param {number} index */
  function byNode(code, index) {
    try {
      const words = new Int32Array(new SharedArrayBuffer(64));
      return String(new Function("words", "AT", `return Atomics.${code}`)(words, index));
    } catch (error) {
      return error.name;
    }
  }

  test("an index of -0 is 0, and one of 2^53 - 1 lies outside, as node has it", async (context) => {
    const all = Object.values(CALLS).flatMap((code) => [-0, MOST, -MOST].map((index) => ({ code, index })));
    const outcome = await recordBody(context, `
      const said = [];
      const indices = [-0, ${MOST}, -${MOST}];
      for (const [at, code] of ${JSON.stringify(Object.values(CALLS))}.entries()) {
        const call = new Function("words", "AT", "return Atomics." + code);
        for (const index of indices) {
          try {
            said.push(String(call(new Int32Array(buffers[0], 4 * at, 1), index)));
          } catch (error) {
            said.push(error.name);
          }
        }
      }
      throw new Error(JSON.stringify(said));`);
    const said = JSON.parse(/^agent 0 threw Error: (.*)$/m.exec(outcome.detail)[1]);
    assert.deepEqual(said, all.map(({ code, index }) => byNode(code, index)));
    assert.deepEqual([said[0], said[1], said[2]], ["0", "RangeError", "RangeError"]);
    assert.deepEqual(callsOf(outcome)[0].map(([, , index]) => index), all.map(({ index }) => index + 0));
  });

  const beyond = Object.entries(CALLS)
    .flatMap(([name, code]) => [BEYOND, -BEYOND].map((index) => ({ name, code, index })));
  /** @type {Cases} of a module whose agents try each of these, in the same workers */
  let cases;

  const folder = temporaryFolder();
  before(() => {
    const calls = beyond.map(({ code, index }) => `(words) => {\nAtomics.${code.replace("AT", `${index}`)}; },\n`);
    const module = fileIn(folder, "agents.mjs", `const CALLS = [${calls.join("")}];
      export default function agent({ buffers }) {
        const words = new Int32Array(buffers[0]);
        CALLS[words[${CASE_WORD}]](words);
      }`);
    cases = new Cases({ ...HOW, module });
  });
  after(() => cases.close());

  for (const name of Object.keys(CALLS)) {
    test(`2^53 is no index for ${name}: it throws RangeError at its line, as node has it`, async () => {
      for (const [at, { name: called, code, index }] of beyond.entries()) {
        if (called !== name) continue;
        assert.equal(byNode(code, index), "RangeError");
        const { ending, fails, detail, script } = await cases.outcomeOf(at);
        assert.deepEqual([ending, fails, callsOf({ script })[0]], ["failed", true, []]);
        const [what, where] = detail.split("\n");
        assert.equal(what, "agent 0 threw RangeError: Invalid atomic access index");
        // The code of each has two lines.
        assert.match(where, new RegExp(`agents\\.mjs:${2 + 2 * at}:9\\)?$`));
      }
    });
  }
});

describe("code of an agent that runs in a conversion comes before the call", () => {
  const WORDS = "const words = new Int32Array(buffers[0]);";
  const inOrder = (...calls) => [calls.map(([name, ...rest]) => [name, "Int32", ...rest])];

  test("its own calls, in the order of the arguments", async (context) => {
    const outcome = await recordBody(context, `${WORDS}
      const step = (at, value) => ({ valueOf: () => Atomics.add(words, at, 1) + value });
      if (Atomics.compareExchange(words, step(4, 0.5), step(5, 0), step(6, 9)) !== 0) throw new Error("another");
      Atomics.wait(words, step(4, -1), step(5, 0), step(6, 0));
      Atomics.notify(words, step(4, -2), step(5, 0));`);
    assert.equal(outcome.ending, "finished", outcome.detail);
    assert.deepEqual(callsOf(outcome), inOrder(
      ["add", 4, 1], ["add", 5, 1], ["add", 6, 1], ["compareExchange", 0, 0, 9],
      ["add", 4, 1], ["add", 5, 1], ["add", 6, 1], ["wait", 0, 1, 1],
      ["add", 4, 1], ["add", 5, 1], ["notify", 0, 2],
    ));
    assert.equal(outcome.answers[0][7], "not-equal");
  });

  test("calls of the same function, one in the other", async (context) => {
    const outcome = await recordBody(context, `${WORDS}
      const after = (depth) => ({ valueOf: () => (depth === 0 ? 1 : Atomics.add(words, 0, after(depth - 1)) + depth) });
      Atomics.add(words, 0, after(3));`);
    assert.deepEqual(callsOf(outcome), inOrder(["add", 0, 1], ["add", 0, 1], ["add", 0, 3], ["add", 0, 5]));
    assert.deepEqual(outcome.answers, [["0", "1", "2", "5"]]);
  });

  test("the call finds what that code changes", async (context) => {
    const outcome = await recordBody(context, `${WORDS}
      Atomics.compareExchange(words, 0, { valueOf: () => Atomics.store(words, 0, 7) }, "8");`);
    assert.deepEqual(outcome.answers, [["7", "7"]]);
    assert.equal(outcome.bytes[0].slice(0, 8), "08000000");
  });

  for (const ordinary of ["watch", "store"]) {
    test(`its ordinary writes, with --ordinary ${ordinary}`, async (context) => {
      const outcome = await recordBody(context, `${WORDS}
        Atomics.store(words, 0, 1);
        Atomics.add(words, { valueOf: () => (words[2] = 5, 0) }, { valueOf: () => words[2] + (words[3] = 6) });`,
      { ordinary });
      assert.equal(outcome.ending, "finished", outcome.detail);
      const [calls] = callsOf(outcome);
      assert.deepEqual([calls[0], calls.at(-1)], inOrder(["store", 0, 1], ["add", 0, 11])[0]);
      const between = calls.slice(1, -1).map(([name, view]) => `${name} ${view}`);
      assert.ok(between.length > 0 && between.every((call) => /^store ordinary_/.test(call)));
      assert.equal(outcome.bytes[0].slice(0, 32), "0c000000000000000500000006000000");
    });
  }

  test("the elements of a watched array that is an argument are read", async (context) => {
    const outcome = await recordBody(context, `${WORDS}
      Atomics.store(words, 3, 12);
      Atomics.store(words, 0, words.subarray(3, 4));`, { trace: true });
    assert.deepEqual(callsOf(outcome), inOrder(["store", 3, 12], ["store", 0, 12]));
    const events = outcome.trace.trim().split("\n").map((line) => JSON.parse(line));
    assert.deepEqual(events.map(({ does }) => does).filter((does) => does !== undefined), ["store", "read", "store"]);
  });

  test("a wait in it, which another agent ends", async (context) => {
    const module = agentsIn(temporaryFolder(context), `${WORDS}
      if (agent === 0) {
        const late = () => (Atomics.wait(words, 0, 0), Atomics.load(words, 2) + 0.5);
        return void Atomics.store(words, 1, { valueOf: late });
      }
      Atomics.store(words, 2, "42");
      Atomics.store(words, 0, 1);
      Atomics.notify(words, 0);`);
    const ended = new Set();
    for await (const outcome of explore({ ...HOW, module, agents: 2, seeds: 8, checkEvery: 1 })) {
      assert.equal(outcome.ending, "finished", outcome.detail);
      assert.deepEqual(callsOf(outcome)[0].at(-1), ["store", "Int32", 1, 42]);
      ended.add(outcome.answers[0][0]);
    }
    assert.deepEqual([...ended].sort(), ["not-equal", "ok"]);
  });

  test("if the run ends in that code, the call isn't made", async (context) => {
    const outcome = await recordBody(context, `${WORDS}
      if (agent === 1) throw new Error("the other one");
      const caught = () => {
        try {
          Atomics.wait(words, 0, 0);
        } catch {}
        return 5;
      };
      Atomics.store(words, 1, { valueOf: caught });`, { agents: 2 });
    assert.match(outcome.detail, /^agent 1 threw Error: the other one/);
    assert.ok(callsOf(outcome)[0].every(([name]) => name === "wait"));
    assert.equal(outcome.bytes[0].slice(8, 16), "00000000");
  });

  test("each call has the line of its own code", async (context) => {
    const outcome = await recordBody(context, `${WORDS}
      Atomics.add(
        words, 0, {
          valueOf: () =>
            Atomics.add(words, 1, 1),
        });`, { trace: true });
    const events = outcome.trace.trim().split("\n").map((line) => JSON.parse(line));
    assert.deepEqual(events.map(({ source }) => /:(\d+):\d+$/.exec(source)[1]), ["6", "3"]);
  });
});

describe("waits on memory of the program's own", () => {
  const BODY = `
    Atomics.load(new Int32Array(buffers[0]), 0);
    const log = [];
    const argument = (name, value) => ({ valueOf: () => (log.push(name), value) });
    const own = new Int32Array(new SharedArrayBuffer(8));
    const begun = performance.now();
    const answer = Atomics.wait(own, argument("index", "1"), argument("value", 0.5), argument("timeout", TIMEOUT));
    throw new Error(JSON.stringify([answer, ...log, performance.now() - begun >= 50]));`;

  for (const [clock, timeout] of [["run", "'3600000'"], ["run", "3600000.5"], ["real", "'50'"], ["real", "50.5"]]) {
    test(`convert once, and sleep: ${timeout} with --clock ${clock}`, async (context) => {
      const { detail } = await recordBody(context, BODY.replace("TIMEOUT", timeout), { clock });
      assert.equal(detail.split("\n")[0], 'agent 0 threw Error: ["timed-out","index","value","timeout",true]');
    });
  }

  test("an error from the conversion of a timeout is thrown, after the other conversions", async (context) => {
    const { detail } = await recordBody(context, `
      Atomics.load(new Int32Array(buffers[0]), 0);
      const own = new Int32Array(new SharedArrayBuffer(8));
      const log = [];
      const fails = { valueOf: () => { throw new EvalError(JSON.stringify(log)); } };
      Atomics.wait(own, { valueOf: () => log.push("index") }, { valueOf: () => log.push("value") }, fails);`);
    assert.equal(detail.split("\n")[0], 'agent 0 threw EvalError: ["index","value"]');
  });
});

test("a patched language changes no conversion", async (context) => {
  const outcome = await recordBody(context, `
    const [words, bigs] = [new Int32Array(buffers[0]), new BigInt64Array(buffers[0])];
    const fails = () => { throw new Error("patched"); };
    for (const name of ["trunc", "min", "max"]) Math[name] = fails;
    for (const name of ["isSafeInteger", "isFinite", "isNaN"]) Number[name] = fails;
    for (const name of ["asIntN", "asUintN"]) BigInt[name] = fails;
    for (const name of ["Int32Array", "BigInt64Array", "SharedArrayBuffer", "Number", "BigInt", "RangeError"]) {
      globalThis[name] = fails;
    }
    Array.prototype[Symbol.iterator] = fails;
    Atomics.store(words, "1", 2.5);
    Atomics.add(bigs, [1], "3");
    Atomics.wait(words, true, "2", "0.5");
    Atomics.notify(words, null, null);`);
  assert.equal(outcome.ending, "finished", outcome.detail);
  assert.deepEqual(callsOf(outcome), [[
    ["store", "Int32", 1, 2], ["add", "BigInt64", 1, "3"], ["wait", "Int32", 1, 2, 0], ["notify", "Int32", 0, 0],
  ]]);
});
