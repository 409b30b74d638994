// The time of a run and its random numbers come from the seed; a wait's time is up rarely while something else can
// move.

import assert from "node:assert/strict";
import { describe, it } from "node:test";
import { agentsPath } from "../helpers/common.mjs";
import { recorded, seedsTo } from "../helpers/recorded.mjs";

/** The outcomes of one program, without pilots, which would take twice as many workers. */
const outcomesOf = (name, seeds, options = {}) =>
  recorded({ module: agentsPath("clocks"), args: [name], agents: 2, everywhere: true, ...options }, seeds);

/** The outcomes of several programs with one agent, run by run. */
const alone = (names, options) =>
  recorded({ module: agentsPath("clocks"), args: names, agents: 1, ...options }, seedsTo(names.length));

/** The words of the buffer at the end. */
const wordsOf = ({ bytes }) => new Int32Array(Uint8Array.from(Buffer.from(bytes[0], "hex")).buffer);

/** How often a wait's time was up before the last move of agent 1. */
function timesUp({ script }) {
  const { schedule } = JSON.parse(script);
  return schedule.slice(0, schedule.lastIndexOf(1)).filter((move) => move.timeout === 0).length;
}

describe("the time of a run and its random numbers", { concurrency: 2 }, () => {
  it("the same seed gives the same run, whatever was before it, and other seeds give others", async () => {
    const some = await outcomesOf("acts", [5, 6, 7, 8]);
    const others = await outcomesOf("acts", [8, 5]);
    assert.deepEqual([some[3].script, some[0].script], others.map(({ script }) => script));
    assert.equal(new Set(some.map(({ bytes }) => bytes[0])).size, 4);
    for (const { ending } of some) assert.equal(ending, "finished");
  });

  it("by each clock a wait whose time is up has taken that long, and each run begins with no time", async () => {
    const seen = [];
    const note = () => seen.push(Date.now());
    const outcomes = await alone(["begins", "waits", "sleeps", "begins"], { init: note, check: note });
    for (const { ending } of outcomes) assert.equal(ending, "finished");
    const [begun, waited, slept, begunAnew] = outcomes.map(wordsOf);
    // A look takes a hundredth of a millisecond. It is the first moment of 2000, as it was while the module was loaded.
    for (const words of [begun, begunAnew]) assert.deepEqual([...words.slice(0, 5)], [1, 0, 2000, 0, 0]);
    // Three of the clocks show parts of a millisecond. Besides the wait there are few moves and looks.
    const [now, date, constructed, hrtime, bigint] = waited;
    for (const took of [now, hrtime, bigint]) assert.ok(took >= 5_000 && took < 5_030, `${took}`);
    for (const took of [date, constructed]) assert.ok(took === 5_000 || took === 5_100, `${took}`);
    // A minute on a word of its own, by the run's time.
    assert.equal(slept[0], 60);
    // What the library was given looks at the machine's clock, which hasn't gone on by a minute.
    assert.ok(seen.length === 8 && seen[0] > Date.UTC(2020, 0, 1) && seen.at(-1) - seen[0] < 30_000, `${seen}`);
  });

  it("a wait's time is up in about one of 20 draws, as it is asked for, or when nothing else can move", async () => {
    // All that can move are alike here, at each call.
    const alike = { strategy: "uniform" };
    const [usual, never, always] = await Promise.all([
      outcomesOf("naps", seedsTo(8), alike),
      outcomesOf("naps", [1], { ...alike, timeouts: 0 }),
      outcomesOf("naps", [1], { ...alike, timeouts: 1 }),
    ]);
    for (const outcome of [...usual, ...never, ...always]) {
      assert.equal(outcome.ending, "finished");
      assert.deepEqual(new Set(outcome.answers[0]), new Set(["timed-out"]));
    }
    // A draw with the offer takes it every other time, so 40 draws are needed, and in half of the draws that follow an
    // end agent 1 goes on: of its 600 calls there are 40 to each end. That is 15 a run, 120 in eight, give or take 11.
    const often = usual.reduce((sum, outcome) => sum + timesUp(outcome), 0);
    assert.ok(often > 70 && often < 170, `${often} times`);
    assert.equal(timesUp(never[0]), 0);
    // Here two draws are needed: with those that follow an end that is every other call, 300 times, give or take 20.
    const most = timesUp(always[0]);
    assert.ok(most > 200 && most < 400, `${most} times`);
  });

  it("`clock: real` shows the machine's clock, and random numbers still come from the seed", async () => {
    const before = Math.floor(Date.now() / 1_000);
    const real = (await outcomesOf("shows", [3, 4], { clock: "real" })).map(wordsOf);
    const after = Math.floor(Date.now() / 1_000);
    for (const [seconds] of real) assert.ok(before <= seconds && seconds <= after, `${seconds}`);
    const simulated = (await outcomesOf("shows", [3, 4])).map(wordsOf);
    for (const [seconds] of simulated) assert.equal(seconds, Date.UTC(2000, 0, 1) / 1_000);
    const drawn = (outcomes) => outcomes.flatMap((words) => [...words.slice(1, 3)]);
    assert.deepEqual(drawn(real), drawn(simulated));
    // Each agent draws from a row of its own, which is another one with each seed.
    assert.equal(new Set(drawn(real)).size, 4);
  });
});
