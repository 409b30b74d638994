// What a failing run failed by, in short, and its last bytes by their names.

import assert from "node:assert/strict";
import { test } from "node:test";
import { FinalStates } from "../../lib/run/ending/final-state.mjs";
import { standstillOf, thrownIn } from "../../lib/run/ending/failure.mjs";
import { SourceNames } from "../../lib/run/words/source-names.mjs";
import { checkedNames } from "../../lib/options/names.mjs";
import { record } from "../../recorder.mjs";
import { agentsIn, temporaryFolder } from "../helpers/common.mjs";
import { hexOf } from "../helpers/recorded.mjs";

const names = new SourceNames("file:///home/me/project/lock.agents.mjs");

test("failures are grouped by the first lines of the message, and the innermost line of code that isn't node's", () => {
  const stack = [
    "    at strictEqual (node:assert:10:5)", "    at new Lock (file:///home/me/project/src/lock.mjs:7:3)",
    "    at file:///home/me/project/lock.agents.mjs:9:1",
  ];
  const message = "check threw AssertionError: these differ:\n\n1 !== 2\n";
  assert.deepEqual(thrownIn([message, ...stack].join("\n"), names), {
    message: ["check threw AssertionError: these differ:", "1 !== 2"], sources: ["src/lock.mjs:7:3"],
  });
  const evaluated = "    at eval (eval at agent (file:///a.mjs:3:1), <anonymous>:1:7)";
  const last = ["agent 1 threw Error: no", evaluated, stack[2]];
  assert.deepEqual(thrownIn(last.join("\n"), names), { message: [last[0]], sources: ["lock.agents.mjs:9:1"] });
  assert.deepEqual(thrownIn("check returned false", names), { message: ["check returned false"], sources: [] });
});

test("a long message is cut to three lines of 160 characters", () => {
  const lines = ["a".repeat(1_000_000), "b", "c", "d", "    at f (file:///a.mjs:1:1)"];
  const { message } = thrownIn(lines.join("\n"), names);
  assert.deepEqual(message, ["a".repeat(160), "b", "c"]);
});

test("standstills are grouped by where agents wait, not by their numbers, and by the line that a limit names", () => {
  const waits = ["b.mjs:4:1", "a.mjs:3:1", "b.mjs:4:1"].map((source, at) => ({ name: `fork[${at % 2}]`, source }));
  const expected = ["an agent waits at fork[0]", "an agent waits at fork[1]"];
  assert.deepEqual(standstillOf("", waits), { message: expected, sources: ["a.mjs:3:1", "b.mjs:4:1"] });
  const spin = "agent 1 spins at src/c.mjs:5:18: it has made 1000 calls, and goes on";
  assert.deepEqual(standstillOf(spin, [{ name: "BELL", source: "" }]), {
    message: [spin, "an agent waits at BELL"], sources: ["src/c.mjs:5:18"],
  });
});

/** The last bytes by names, where the buffers have 24 and 2 bytes. @param {object} given @param {string[]} bytes */
const namedIn = (given, bytes) => new FinalStates(checkedNames(given, [24, 2])).of("finished", bytes).named;

test("last bytes have their names, as values of their kinds, which the code writes so", () => {
  const bytes = new Uint8Array(24);
  new Int32Array(bytes.buffer)[0] = -1;
  new Float64Array(bytes.buffer).set([0.25, -0], 1);
  const given = { LOCK: 0, samples: ["Float64", 0], slots: ["Uint8", 1], last: ["BigUint64", 0, 1] };
  assert.equal(namedIn(given, [hexOf(bytes), "1e14"]),
    "LOCK -1, samples [2.1219957905e-314, 0.25, -0], slots [30, 20], last 4598175219545276416n");
  assert.equal(namedIn(undefined, [hexOf(bytes), "1e14"]), null);
});

test("bytes without a name are shown if they aren't zero, and a long array by its first elements", () => {
  const zero = "00".repeat(24);
  assert.equal(namedIn({ LOCK: 0 }, [zero, "0000"]), "LOCK 0");
  assert.equal(namedIn({ LOCK: 0 }, [zero, "0001"]), `LOCK 0; all bytes: ${zero} | 0001`);
  assert.equal(namedIn({ bytes: ["Uint8", 0] }, [zero, "0000"]), "bytes [0, 0, 0, 0, 0, 0, 0, 0, …]");
});

test("runs with the same ending and the same bytes have the same state, and others don't", () => {
  const states = new FinalStates([]);
  const one = states.of("finished", ["00", "01"]);
  assert.deepEqual(states.of("finished", ["00", "01"]), one);
  assert.deepEqual(one.shown, ["00", "01"]);
  for (const other of [states.of("deadlock", ["00", "01"]), states.of("finished", ["00", "02"])]) {
    assert.notEqual(other.hash, one.hash);
  }
});

test("an outcome has what its run failed by", async (context) => {
  const module = agentsIn(temporaryFolder(context), [
    "const words = new Int32Array(buffers[0]);",
    'if (args[0] === "throws") throw new RangeError("no such luck");',
    'if (args[0] === "waits") Atomics.wait(words, 0, 0);',
    'if (args[0] === "spins") while (Atomics.load(words, 1) === 0);',
    "Atomics.load(words, 0);",
  ].join("\n"));
  const failureOf = async (way) => (await record({ module, agents: 1, buffers: [8], args: [way] })).failure;
  assert.deepEqual(await failureOf("throws"), {
    message: ["agent 0 threw RangeError: no such luck"], sources: ["agents.mjs:3:33"],
  });
  assert.deepEqual(await failureOf("waits"), {
    message: ["an agent waits at byte 0 of block 0"], sources: ["agents.mjs:4:34"],
  });
  assert.deepEqual((await failureOf("spins")).sources, ["agents.mjs:5:41"]);
  assert.equal(await failureOf("ends"), undefined);
});
