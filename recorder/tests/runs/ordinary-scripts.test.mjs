// What of ordinary writes stands in a script where all of them don't fit: the run goes on, the script has what its
// calls rest on, and where not even that fits, there is none. sabsim replays each script that there is.

import assert from "node:assert/strict";
import { describe, it } from "node:test";
import { SCRIPT_LIMITS } from "../../script/limits.mjs";
import { agentsPath } from "../helpers/common.mjs";
import { hexOf, recorded, seedsTo, summaryLines } from "../helpers/recorded.mjs";

const MOST = SCRIPT_LIMITS.calls;
const LARGEST = SCRIPT_LIMITS.bytes;

/** The outcomes of some programs, one after the other. */
function outcomesOf(programs, options = {}) {
  const all = { module: agentsPath("big-writes"), agents: 1, buffers: [LARGEST], args: programs, ...options };
  return recorded(all, seedsTo(programs.length));
}

const callsOf = ({ script }, agent = 0) => JSON.parse(script).agents[agent].calls;
const isOwn = ([, view]) => !view.startsWith("ordinary");

const FILLED = Uint8Array.from({ length: LARGEST }, (_, at) => at % 251);
const ROUNDS = 24;
const WHY_NOT = `agent 0 would have more than ${MOST} calls, with the ordinary writes of bytes that calls touch`;

/** The bytes at the end of words that have all been written the same. */
const allWords = (value) => hexOf(new Int32Array(LARGEST / 4).fill(value));

/** A loop over all bytes was recorded, with the words that calls have seen. */
function demandFilled(outcome, ordinary) {
  assert.deepEqual([outcome.ending, outcome.scriptHolds, outcome.noScript], ["finished", "touched", undefined]);
  const filled = FILLED.slice();
  const words = new Int32Array(filled.buffer);
  assert.deepEqual(outcome.answers, [[`${words[5]}`, `${words[100]}`]]);
  words[100] += 1;
  assert.deepEqual(outcome.bytes, [hexOf(filled)]);
  const stores = callsOf(outcome).filter((call) => !isOwn(call));
  assert.equal(stores.length, 2);
  for (const [name, view] of stores) assert.match(`${name} ${view}`, /^store ordinary_(BigUint64|Uint32|Int32)$/);
  const line = "1 script holds only the ordinary writes of bytes that calls touch, since not all fit; its other " +
    "bytes weren't compared";
  assert.ok(summaryLines([outcome], { ordinary, checkedBy: "module 1" }).includes(line));
}

describe("ordinary writes that don't all fit into a script", { concurrency: 2 }, () => {
  for (const ordinary of ["watch", "store"]) {
    it(`a loop over 64 KiB ends no run, and the script holds the bytes that calls read: ${ordinary}`, async () => {
      const [filled, refilled] = await outcomesOf(["fills", `refills ${ROUNDS}`], { ordinary });
      demandFilled(filled, ordinary);
      // More is written than there is room for; what was left out is taken up again when a call reads it.
      assert.deepEqual([refilled.ending, refilled.scriptHolds], ["finished", "touched"]);
      assert.deepEqual(refilled.answers[0], Array.from({ length: ROUNDS }, (_, at) => `${at + 1}`));
      assert.deepEqual(refilled.bytes, [allWords(ROUNDS)]);
    });
  }

  it("a script holds as many stores as just fit, and not one more", async () => {
    const half = MOST / 2;
    const [full, unseen, seen] = await outcomesOf([`pairs ${half} 0 0`, `pairs ${half} 0 1`, `pairs ${half} 1 0`]);
    assert.deepEqual([full.ending, full.scriptHolds, callsOf(full).length], ["finished", "all", MOST]);
    assert.equal(callsOf(full).filter(isOwn).length, half);
    assert.deepEqual([unseen.ending, unseen.scriptHolds, callsOf(unseen).length], ["finished", "touched", MOST]);
    // The word that is left out is the run's own at the end all the same.
    assert.equal(unseen.bytes[0].slice(8 * 8, 9 * 8), "08000000");
    const { ending, fails, script, scriptHolds, noScript, bytes } = seen;
    assert.deepEqual([ending, fails, script, scriptHolds], ["finished", false, undefined, undefined]);
    assert.equal(noScript, WHY_NOT);
    const lines = summaryLines([seen], { checkedBy: "module 1" });
    assert.ok(lines.includes(`1 run has no script, and wasn't replayed: ${WHY_NOT}`), lines.join("\n"));
    assert.equal(bytes[0].slice(0, 8), "07000000");
  });

  it("an agent's limit is that of its own calls", async () => {
    const [full, more] = await outcomesOf([`calls ${MOST}`, `calls ${MOST + 1}`]);
    assert.deepEqual([full.ending, full.calls, full.progress], ["finished", MOST, [{ returned: MOST, calls: MOST }]]);
    // The writes are to a word that no call touches.
    assert.deepEqual([full.scriptHolds, callsOf(full).length], ["touched", MOST]);
    assert.deepEqual([more.ending, more.calls], ["limit", MOST]);
    assert.match(more.detail, new RegExp(`^agent 0 has made ${MOST} calls, and goes on`));
  });

  it("a run without a script, and its races, go on", async () => {
    const [[few], [many]] = await Promise.all([
      outcomesOf(["overwhelms 1"], { agents: 2 }),
      // More than there is room for while the run goes on: 400 elements in each round.
      outcomesOf(["overwhelms 400"], { agents: 2 }),
    ]);
    assert.deepEqual([few.ending, few.scriptHolds, few.races.length], ["race", "all", 1]);
    assert.deepEqual([many.ending, many.script, many.report], ["race", undefined, undefined]);
    assert.equal(many.noScript, "too many ordinary writes were made to bytes that calls touch");
    assert.deepEqual(many.races.map(({ lines }) => lines), few.races.map(({ lines }) => lines));
    // 400 calls, one for each round, and the last one; and the other agent's.
    assert.deepEqual([many.calls, many.answers[0].length, many.answers[0][799]], [802, 801, "400n"]);
  });
});
