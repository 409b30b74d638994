// The same programs with ordinary accesses where these are watched, stored and refused: how their runs end, what is
// seen of them, and what is said of what isn't.

import assert from "node:assert/strict";
import { fileURLToPath } from "node:url";
import { before, describe, it } from "node:test";
import { UNSEEN } from "../../lib/run/script/transcript.mjs";
import { PROGRAMS } from "../agents/modes.mjs";
import { agentsPath } from "../helpers/common.mjs";
import { different, hexOf, placesOfText, recorded, seedsTo, summaryLines } from "../helpers/recorded.mjs";

const MODES = ["watch", "store", "refuse"];
const NAMES = Object.keys(PROGRAMS);
const ROUNDS = 6;

/** @param {string} name */
const recordKnown = (name, ordinary) =>
  recorded({ module: fileURLToPath(new URL(`../known/${name}.mjs`, import.meta.url)), ordinary }, seedsTo(20));

/** Seeds in which the agents begin in turn: each takes part in all runs, also in those that end soon. */
const inTurn = (amount) => seedsTo(2 * amount).filter((seed) => seed % 4 !== 2).slice(0, amount);

/** The outcomes of all programs in each of the modes, under the same seeds. With a trace each run is made once. */
async function allModes() {
  const options = { module: agentsPath("modes"), trace: true };
  const outcomesOf = (ordinary) => recorded({ ...options, ordinary }, inTurn(NAMES.length * ROUNDS));
  const [watch, store, refuse] = await Promise.all(MODES.map(outcomesOf));
  const ofName = (outcomes, name) => outcomes.filter((_, run) => run % NAMES.length === NAMES.indexOf(name));
  return (name) => ({ watch: ofName(watch, name), store: ofName(store, name), refuse: ofName(refuse, name) });
}

/** The names of a script's views of ordinary writes, and of the one that says that some accesses may be unseen. */
function ordinaryViews({ script }) {
  return JSON.parse(script).views.map(({ name }) => name).filter((name) => name.startsWith("ordinary")).sort();
}

/** The calls of a script that stand for ordinary writes of an agent. */
const ordinaryCalls = ({ script }, agent) =>
  JSON.parse(script).agents[agent].calls.filter(([, view]) => view.startsWith("ordinary"));

describe("ordinary accesses in each mode", () => {
  let outcomesOf;

  before(async () => {
    outcomesOf = await allModes();
  });

  it("a counter under a mutex is right, and the modes make the same runs", () => {
    const { watch, store, refuse } = outcomesOf("counter");
    for (const outcomes of [watch, store]) {
      assert.deepEqual(different(outcomes, "ending"), ["finished"]);
      assert.deepEqual(outcomes.flatMap(({ races }) => races), []);
      for (const { bytes } of outcomes) assert.equal(bytes[1].slice(0, 4), "0400");
    }
    // Who is asked for a call, and who moves, doesn't rest on how ordinary accesses are seen.
    const partsOf = ({ seed, moves, calls, answers, bytes }) => ({ seed, moves, calls, answers, bytes });
    assert.deepEqual(store.map(partsOf), watch.map(partsOf));
    // Four times a read and a write.
    for (const { ordinary } of watch) assert.equal(ordinary, 8);
    for (const { ordinary } of [...store, ...refuse]) assert.equal(ordinary, 0);
    assert.deepEqual(different(refuse, "ending"), ["failed"]);
    for (const { detail } of refuse) {
      const what = /^agent \d changed byte 0 of block 1 from 0 to 1 without a call of Atomics, after its call \d+, /;
      assert.match(detail, what);
    }
  });

  it("an unguarded counter races under each seed if accesses are watched, and else never", () => {
    const { watch, store } = outcomesOf("unlocked");
    assert.deepEqual(different(watch, "ending"), ["race"]);
    const [line] = placesOfText("modes", "count[0] += 1;\n    Atomics.load").map(({ line: number }) => number);
    for (const { detail, races, bytes } of watch) {
      // The write of each with the read of the other, and with its write.
      const columns = races.map(({ lines }) => lines.map((place) => {
        const [, column] = new RegExp(`^modes\\.mjs:${line}:(\\d+)$`).exec(place) ?? assert.fail(place);
        return column;
      }));
      assert.equal(columns.length, 2, detail);
      assert.deepEqual(columns.map(([one, other]) => one === other).sort(), [false, true], detail);
      assert.ok(detail.startsWith(`agent 0 writes Uint16_b1[0] at modes.mjs:${line}:`), detail);
      assert.match(detail, /before its call 0; agent 1 /);
      assert.equal(bytes[1].slice(0, 4), "0200");
    }
    assert.deepEqual(different(store, "ending"), ["finished"]);
    assert.deepEqual(store.flatMap(({ races }) => races), []);
  });

  it("rings: with `--ordinary store` no race is found in the same runs", async () => {
    const right = await recordKnown("ring", "store");
    assert.deepEqual(different(right, "ending"), ["finished"]);
    // Four messages in two slots.
    for (const { bytes } of right) assert.equal(bytes[1], "1e28");
    const [watch, store] = await Promise.all(["watch", "store"].map((mode) => recordKnown("ring-frees-first", mode)));
    const racing = watch.filter(({ ending }) => ending === "race");
    assert.ok(racing.length > 0);
    for (const { seed } of racing) assert.equal(store[seed - 1].ending, "finished");
    assert.deepEqual(store.flatMap(({ races }) => races), []);
  });

  it("the script has the written bytes, whatever the kind of the write", () => {
    const { watch, store, refuse } = outcomesOf("writes");
    const bytes = new DataView(new ArrayBuffer(32));
    bytes.setInt16(1, -2);
    bytes.setFloat32(4, 1.5, true);
    bytes.setUint8(3, 255);
    bytes.setFloat32(8, -0.5, true);
    bytes.setFloat64(16, 0.1, true);
    bytes.setBigInt64(24, -3n, true);
    for (const outcome of [...watch, ...store]) {
      assert.deepEqual([outcome.ending, outcome.scriptHolds, outcome.bytes[1]], ["finished", "all", hexOf(bytes)]);
    }
    for (const outcome of watch) {
      // The two bytes at 1 aren't aligned; what a DataView writes are the largest aligned elements.
      assert.deepEqual(ordinaryCalls(outcome, 0), [
        ["store", "ordinary_Uint8_b1", 1, 255],
        ["store", "ordinary_Uint8_b1", 2, 254],
        ["store", "ordinary_Uint32_b1", 1, 0x3fc00000],
        ["store", "ordinary_Uint8Clamped_b1", 3, 255],
        ["store", "ordinary_Float32_b1", 2, 0xbf000000],
        ["store", "ordinary_Float64_b1", 2, `${bytes.getBigUint64(16, true)}`],
        ["store", "ordinary_BigInt64_b1", 3, "-3"],
      ]);
    }
    for (const outcome of store) assert.deepEqual(ordinaryViews(outcome), ["ordinary_Int32_b1", UNSEEN]);
    tellsWhatIsNotSeen(watch, store, refuse);
  });

  it("calls have the program's own numbers, and the script's too if they differ", () => {
    const { watch, store } = outcomesOf("sleeps");
    for (const { ending, detail, progress, calls, answers } of [...watch, ...store]) {
      assert.equal(ending, "deadlock");
      const own = 'agent 0 waits at byte 0 of block 0: its call 2, ["wait", "Int32_b0", 0, 0]';
      const [{ line, column }] = placesOfText("modes", "wait(words, 0, 0)");
      assert.equal(detail, `${own}, at modes.mjs:${line}:${column}, which is 4 in the script`);
      assert.deepEqual([progress[0], calls, answers[0]], [{ returned: 2, calls: 3 }, 4, ["0", "0", null]]);
    }
  });
});

/** The last lines of summaries say what the mode doesn't see: of six runs with six writes, and four calls, each. */
function tellsWhatIsNotSeen(watch, store, refuse) {
  const lines = (outcomes, ordinary) => summaryLines(outcomes, { ordinary });
  const seen = "6 runs made 24 calls of Atomics, and 36 ordinary reads and writes";
  assert.equal(lines(watch, "watch").at(-1), seen);
  const unseen = /^ordinary reads were not seen, .* so unordered accesses were not looked for$/;
  assert.match(lines(store, "store").at(-1), unseen);
  assert.match(lines(refuse, "refuse").at(-1), unseen);
  assert.equal(lines(refuse, "refuse")[0], "6 of 6 runs failed: 6 stopped");
}
