// Names of words and of arrays, which a module's `setup` gives: in scripts, in sabsim's reports on them, and in the
// recorder's own texts.

import assert from "node:assert/strict";
import { test } from "node:test";
import { checkedNames, Names, nameText } from "../../lib/options/names.mjs";
import { KINDS } from "../../script/kinds.mjs";
import { moduleOf, refusedInALine } from "../helpers/common.mjs";
import { recorded, seedsTo } from "../helpers/recorded.mjs";
import { simulated } from "../helpers/simulate.mjs";

const INT32 = KINDS.indexOf("Int32");
const UINT8 = KINDS.indexOf("Uint8");

/**
 * Records a module of agents, whose every script sabsim replays to the same where it is given. Without pilots, and
 * since it is given how many agents there are, few workers begin.
 */
async function recordedModule(context, setup, body, { seeds = [1], ...options } = {}) {
  const module = moduleOf(context, `export const setup = ${JSON.stringify(setup)};
export default function agent({ buffers, agent, agents, args }) {\n${body}\n}\n`);
  return recorded({ module, agents: setup.agents, everywhere: true, ...options }, seeds);
}

/** What the explained report of a script says of each act. */
function explained(script) {
  const { status, output } = simulated(["replay", "--format", "explained", "--acts"], script);
  assert.equal(status, 0);
  return output.split("\n").filter((line) => / act /.test(line)).map((line) => line.split(/ {2,}/)[1]);
}

test("which names are allowed, and what they may name", () => {
  const words = checkedNames({ LOCK: 0, wake: ["Int32", 0, 1], big: ["BigInt64", 1, 1], slots: ["Uint8", 1] }, [8, 16]);
  assert.deepEqual(words, [
    { name: "LOCK", kind: INT32, block: 0, offset: 0, length: 1 },
    { name: "wake", kind: INT32, block: 0, offset: 4, length: 1 },
    { name: "big", kind: KINDS.indexOf("BigInt64"), block: 1, offset: 8, length: 1 },
    { name: "slots", kind: UINT8, block: 1, offset: 0, length: 16 },
  ]);
  const FLOAT64 = KINDS.indexOf("Float64");
  assert.deepEqual(checkedNames({
    samples: { kind: "Float64", buffer: 0, offset: 8, length: 2 }, rest: { kind: "Float64", buffer: 0, offset: 16 },
    all: { kind: "Uint8", buffer: 1 },
  }, [37, 3]), [
    { name: "samples", kind: FLOAT64, block: 0, offset: 8, length: 2 },
    { name: "rest", kind: FLOAT64, block: 0, offset: 16, length: 2 },
    { name: "all", kind: UINT8, block: 1, offset: 0, length: 3 },
  ]);
  // Two names may overlap: of an element the shortest one counts. So they are of two places if one thing differs.
  const part = { kind: "Int16", buffer: 0, offset: 2, length: 3 };
  const others = [{ kind: "Uint16" }, { buffer: 1 }, { offset: 4 }, { length: 2 }]
    .map((each) => ({ ...part, ...each }));
  assert.deepEqual(others.map((other) => checkedNames({ part, other }, [16, 16]).length), [2, 2, 2, 2]);
  assert.deepEqual(checkedNames(undefined, [8]), []);
  assert.equal(checkedNames({ [`a${"_".repeat(22)}`]: 0 }, [8]).length, 1);
});

for (const [names, why] of [
  [[0], /^`names` must be an object, as \{ LOCK: 0/],
  ["LOCK", /^`names` must be an object/],
  [null, /^`names` must be an object/],
  [{ "my lock": 0 }, /^`names` can't have "my lock": a name has 1 to 23 letters, digits or _$/],
  [{ "": 0 }, /^`names` can't have "": a name has 1 to 23/],
  [{ ["a".repeat(24)]: 0 }, /a name has 1 to 23/],
  [{ "naïve": 0 }, /a name has 1 to 23/],
  [{ Int32: 0 }, /^`names` can't have Int32: scripts give such names to other views, so choose another name$/],
  [{ Uint8_b1_at8_x4: 0 }, /scripts give such names to other views/],
  [{ ordinary_x: 0 }, /scripts give such names to other views/],
  [{ init_: 0 }, /scripts give such names to other views/],
  [{ waitAsync_1_of_0: 0 },
    /^`names` can't have waitAsync_1_of_0: scripts give such names to other views, so choose another name$/],
  [{ unseen: 0 }, /^`names` can't have unseen: scripts give such names to other views, so choose another name$/],
  [{ LOCK: "0" }, /^`names` gives LOCK no place: write \[kind, buffer, index\] for an element/],
  [{ LOCK: ["Int32"] }, /gives LOCK no place/],
  [{ LOCK: ["Int32", 0, 0, 0] }, /gives LOCK no place/],
  [{ LOCK: ["int32", 0, 0] }, /^`names` gives LOCK the kind int32: is Int32 meant\?$/],
  [{ LOCK: ["Int32Array", 0, 0] }, /^`names` gives LOCK the kind Int32Array: is Int32 meant\?$/],
  [{ LOCK: ["Int32", 2, 0] }, /^`names` puts LOCK on buffer 2: there is no such buffer, only 0 to 1$/],
  [{ LOCK: ["Int32", "0", 0] }, /puts LOCK on buffer 0: there is no such buffer/],
  [{ LOCK: 2 }, /^`names` puts LOCK at index 2: buffer 0 has 2 elements of kind Int32, counted from 0$/],
  [{ LOCK: -1 }, /puts LOCK at index -1/],
  [{ LOCK: 0.5 }, /puts LOCK at index 0.5/],
  [{ LOCK: ["Int32", 0, undefined] }, /puts LOCK at index undefined/],
  [{ LOCK: 0, lock: ["Int32", 0, 0] }, /^`names` has two names for one place, LOCK and lock: give one$/],
  [{ a: ["Uint8", 1], b: ["Uint8", 1] }, /two names for one place, a and b/],
  [{ a: { kind: "Int16", buffer: 1, ofset: 2 } }, /^`names` gives a a member ofset: is offset meant\?$/],
  [{ a: { buffer: 1 } }, /^`names` gives a no `kind`$/],
  [{ a: { kind: "Int16", offset: 2 } }, /^`names` gives a no `buffer`$/],
  [{ a: { kind: "int16", buffer: 1 } }, /^`names` gives a the kind int16: is Int16 meant\?$/],
  [{ a: { kind: "Int16", buffer: 2 } }, /^`names` puts a on buffer 2: there is no such buffer, only 0 to 1$/],
  [{ a: { kind: "Float64", buffer: 1, offset: 4 } },
    /^`names` puts a at offset 4: give a multiple of 8, since an element of kind Float64 takes 8 bytes$/],
  [{ a: { kind: "Float64", buffer: 1, offset: 16 } },
    /^`names` puts a at offset 16: buffer 1 has 16 bytes, and an element of kind Float64 takes 8$/],
  [{ a: { kind: "Int16", buffer: 1, offset: "2" } }, /^`names` puts a at offset 2: buffer 1 has 16 bytes/],
  [{ a: { kind: "Int16", buffer: 1, offset: -2 } }, /puts a at offset -2/],
  [{ a: { kind: "Int16", buffer: 1, offset: 8, length: 5 } },
    /^`names` gives a the length 5: buffer 1 has room for 1 to 4 elements of kind Int16 from offset 8 on$/],
  [{ a: { kind: "Int16", buffer: 1, offset: 8, length: 0 } }, /gives a the length 0/],
  [{ a: { kind: "Int16", buffer: 1, length: null } }, /gives a the length null/],
  [{ a: { kind: "Int16", buffer: 1, offset: 0.5 } }, /^`names` puts a at offset 0\.5: buffer 1 has 16 bytes/],
  [{ a: { kind: "Int16", buffer: 1, offset: 3 } }, /^`names` puts a at offset 3: give a multiple of 2/],
  [{ a: { kind: "Int16", buffer: 1, offset: 15 } }, /^`names` puts a at offset 15: buffer 1 has 16 bytes/],
  [{ a: { kind: "Int16", buffer: 1, length: 1.5 } }, /gives a the length 1\.5/],
  [{ a: { kind: 5, buffer: 1 } }, /^`names` gives a the kind 5: /],
  [{ a: ["Float16", 0] },
    /^`names` gives a the kind Float16: no script can have such a view, so leave this name out$/],
  [{ a: { kind: "Int16", buffer: "1" } }, /^`names` puts a on buffer 1: there is no such buffer/],
  [{ a: { kind: "Int16", buffer: 0.5 } }, /^`names` puts a on buffer 0\.5: there is no such buffer/],
  [{ a: { kind: "Int16", buffer: -1 } }, /^`names` puts a on buffer -1: there is no such buffer/],
  [{ a: {} }, /^`names` gives a no `kind`$/],
  [{ a: { kind: "Uint8", buffer: 1 }, b: ["Uint8", 1] }, /two names for one place, a and b/],
  [{ a: { kind: "Int32", buffer: 0, offset: 4, length: 1 }, b: 1 }, /two names for one place, a and b/],
  [{ a: { kind: "Int16", buffer: 1, offset: 2 }, b: { kind: "Int16", buffer: 1, offset: 2, length: 7 } },
    /two names for one place, a and b/],
  [Object.fromEntries(Array.from({ length: 65 }, (_, at) => [`w${at}`, at])), /^`names` has 65 names: a script has /],
]) {
  test(`names that can't be: ${JSON.stringify(names).slice(0, 60)}`, () => {
    assert.throws(() => checkedNames(names, [8, 16]), refusedInALine(why));
  });
}

test("a module whose names can't be is refused before anything runs", async (context) => {
  const run = recordedModule(context, { agents: 1, buffers: [4], names: { LOCK: 1 } }, "");
  await assert.rejects(run, refusedInALine(/puts LOCK at index 1/));
});

test("an element has the name of its word, or else of its array", () => {
  const list = checkedNames({ first: ["Uint8", 1, 0], slots: ["Uint8", 1], half: ["Uint16", 1, 1] }, [8, 16]);
  const names = new Names(list);
  const nameAt = (...place) => {
    const named = names.at(...place);
    return named && `${named.view.name} ${named.index}`;
  };
  assert.deepEqual([nameAt(UINT8, 1, 0), nameAt(UINT8, 1, 3)], ["first 0", "slots 3"]);
  assert.deepEqual([2, 4].map((byte) => nameAt(KINDS.indexOf("Uint16"), 1, byte)), ["half 0", undefined]);
  assert.deepEqual([nameAt(UINT8, 0, 0), nameAt(KINDS.indexOf("Int8"), 1, 0)], [undefined, undefined]);
});

test("indices of a part of a buffer count from its offset, and an element has its shortest name", () => {
  const names = new Names(checkedNames({
    all: ["Int16", 0], head: { kind: "Int16", buffer: 0, offset: 0, length: 2 }, FLAG: ["Int16", 0, 1],
    samples: { kind: "Float64", buffer: 0, offset: 8, length: 2 },
  }, [24]));
  const [INT16, FLOAT64] = ["Int16", "Float64"].map((kind) => KINDS.indexOf(kind));
  const nameAt = (...place) => {
    const named = names.at(...place);
    return named && nameText(named);
  };
  const wanted = ["head[0]", "FLAG", "all[2]", "all[4]", undefined];
  assert.deepEqual([0, 2, 4, 8, 3].map((byte) => nameAt(INT16, 0, byte)), wanted);
  assert.deepEqual([0, 8, 16].map((byte) => nameAt(FLOAT64, 0, byte)), [undefined, "samples[0]", "samples[1]"]);
  // A DataView has no kind: its bytes go by the name of an element that is just these.
  const of = (from, to) => names.of(0, from, to)?.view.name;
  assert.deepEqual([of(8, 16), of(2, 4), of(8, 12), of(9, 17)], ["samples", "FLAG", undefined, undefined]);
});

test("scripts and reports have the names, from whichever view a call comes", async (context) => {
  const setup = { agents: 1, buffers: [16, 4], names: { LOCK: 0, wake: ["Int32", 0, 3], slots: ["Uint8", 1] } };
  const [{ script }] = await recordedModule(context, setup, `
    const words = new Int32Array(buffers[0]);
    const later = new Int32Array(buffers[0], 8, 2);
    const slots = new Uint8Array(buffers[1]);
    Atomics.store(words, 0, 5);
    Atomics.add(words, 1, 1);
    Atomics.store(words, 3, 7);
    Atomics.load(later, 1);
    Atomics.load(new Uint32Array(buffers[0]), 0);
    slots[2] = 9;
    Atomics.load(new Uint8Array(buffers[1], 1), 1);
    Atomics.notify(words, 3);
  `);
  assert.deepEqual(explained(script), [
    "store(LOCK, 0, 5) changes LOCK[0] from 0 to 5",
    "add(Int32_b0, 1, 1) changes Int32_b0[1] from 0 to 1",
    "store(wake, 0, 7) changes wake[0] from 0 to 7",
    "load(wake, 0) reads 7",
    "load(Uint32_b0, 0) reads 5",
    "store(ordinary_slots, 2, 9) changes ordinary_slots[2] from 0 to 9",
    "load(slots, 2) reads 9",
    "notify(wake, 0) wakes nobody: nobody waits at wake[0]",
  ]);
});

/** The run of an agent whose indices aren't those of its views, though a named word stands there. */
async function throwingRun(context) {
  const setup = { agents: 1, buffers: [16], names: { LOCK: 0, WAKE: 1, low: ["Float64", 0, 1] } };
  const [outcome] = await recordedModule(context, setup, `
    const one = new Int32Array(buffers[0], 0, 1);
    const thrown = [];
    for (const call of [() => Atomics.load(one, 1), () => Atomics.wait(one, 1, 0, 0), () => Atomics.load(one, -1),
      () => Atomics.load(new Float64Array(buffers[0]), 1), () => Atomics.wait(new Int32Array(buffers[0]), 1, 0n, 0)]) {
      try {
        call();
      } catch (error) {
        thrown.push(error.constructor.name);
      }
    }
    if (thrown.join() !== "RangeError,RangeError,RangeError,TypeError,TypeError") throw new Error(thrown.join());
  `);
  return outcome;
}

test("an index beyond its view throws, though a named word is there", async (context) => {
  const { answers, ending } = await throwingRun(context);
  assert.equal(ending, "finished");
  assert.deepEqual(answers, [["RangeError", "RangeError", "RangeError", "TypeError", "TypeError"]]);
});

test("sabsim explains such a call by that view", async (context) => {
  const { script } = await throwingRun(context);
  assert.deepEqual(explained(script), [
    "load(Int32_x1, 1) throws: Int32_x1 has 1 element",
    "wait(Int32_x1, 1, 0, 0) throws: Int32_x1 has 1 element",
    "load(Int32_x1, -1) throws: Int32_x1 has 1 element",
    "load(low, 0) throws: low is Float64, which Atomics doesn't take",
    "wait(WAKE, 0, 0n, 0) throws: WAKE takes Numbers",
  ]);
});

test("the reports of a deadlock and of a race use names", async (context) => {
  const setup = { agents: 2, buffers: [12], names: { LOCK: 0, WAKE: 1, data: ["Uint8", 0] } };
  const [deadlock] = await recordedModule(context, setup, `
    const words = new Int32Array(buffers[0]);
    if (agent === 0) Atomics.wait(words, 1, 0);
    else Atomics.load(words, 0);
  `);
  assert.deepEqual([deadlock.ending, deadlock.detail], [
    "deadlock", 'agent 0 waits at WAKE: its call 0, ["wait", "WAKE", 0, 0], at agents.mjs:5:30',
  ]);
  const races = await recordedModule(context, setup, `
    const words = new Int32Array(buffers[0]);
    Atomics.load(words, 0);
    if (agent === 0) new Uint8Array(buffers[0], 8)[1] = 1;
    else if (new Uint8Array(buffers[0])[9] > 1) throw new Error("never");
  `);
  const [{ ending, detail, races: [{ sides }] }] = races;
  assert.equal(ending, "race");
  assert.match(detail, /agent 0 writes data\[9\] at agents.mjs:\d+:\d+, after its call 0/);
  assert.match(detail, /agent 1 reads data\[9\] at agents.mjs:\d+:\d+, after its call 0/);
  assert.deepEqual(sides.map(({ element }) => element), ["data[9]", "data[9]"]);
});

test("a race of a DataView has the name whose element its bytes are, and else the byte", async (context) => {
  const names = { samples: { kind: "Float64", buffer: 0, offset: 8, length: 2 } };
  const setup = { agents: 2, buffers: [24], names };
  const elements = async (at) => {
    const [{ races }] = await recordedModule(context, setup, `
      Atomics.load(new Int32Array(buffers[0]), 0);
      if (agent === 0) new DataView(buffers[0], ${at}).setFloat64(0, 0.25, true);
      else new Float64Array(buffers[0], 8, 2).slice();
    `);
    return races.flatMap(({ sides }) => sides.map(({ element }) => element)).sort();
  };
  assert.deepEqual(await elements(16), ["samples[1]", "samples[1]"]);
  assert.deepEqual(await elements(12), ["byte 12 of block 0", "samples[0]"]);
});

test("runs with names have the same outcomes as runs without", async (context) => {
  const setup = { agents: 3, buffers: [12] };
  const body = `
    const words = new Int32Array(buffers[0]);
    for (let time = 0; time < 2; time += 1) {
      while (Atomics.exchange(words, 0, 1) !== 0) Atomics.wait(words, 1, 0);
      words[2] += 1;
      Atomics.store(words, 0, 0);
      Atomics.notify(words, 1, 1);
    }
  `;
  const names = { LOCK: 0, WAKE: 1, count: 2 };
  const plain = await recordedModule(context, setup, body, { seeds: seedsTo(20) });
  const named = await recordedModule(context, { ...setup, names }, body, { seeds: seedsTo(20) });
  const same = ({ seed, ending, moves, calls, bytes, report }) => ({ seed, ending, moves, calls, bytes, report });
  assert.deepEqual(named.map(same), plain.map(same));
  assert.ok(named.every(({ script }) => !script.includes('"Int32"')
    || /\{"name": "LOCK", "kind": "Int32"/.test(script)), "no view has the kind's name");
});

test("if names would take too many views, the script leaves them out", async (context) => {
  // 40 words, named, of which each is used by calls and by ordinary writes: 80 views, where a script has 64.
  const names = Object.fromEntries(Array.from({ length: 40 }, (_, at) => [`word${at}`, at]));
  const [{ ending, script, noScript }] = await recordedModule(context, { agents: 1, buffers: [160], names }, `
    const words = new Int32Array(buffers[0]);
    for (let at = 0; at < 40; at += 1) {
      words[at] = at + 1;
      Atomics.load(words, at);
    }
  `);
  assert.deepEqual([ending, noScript], ["finished", undefined]);
  assert.deepEqual(JSON.parse(script).views.map(({ name }) => name), ["ordinary_Int32", "Int32", "ordinary_unseen"]);
});
