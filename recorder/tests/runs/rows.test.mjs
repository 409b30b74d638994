// Runs that are forced to go by a row of draws: on the board alone, and with examples and wrong programs, of which some
// are shortened. `known.test.mjs` forces runs of all known programs.

import assert from "node:assert/strict";
import { readdirSync } from "node:fs";
import { describe, it, test } from "node:test";
import { REAL_ANSWER } from "../../lib/board/drawn-schedule.mjs";
import { checkedBy } from "../../lib/check/check.mjs";
import { PHASE, WORD } from "../../lib/memory/layout.mjs";
import { firstOtherMove } from "../../lib/run/same.mjs";
import { keptScript } from "../../lib/shorter/kept-script.mjs";
import { shorten } from "../../lib/shorter/shorten.mjs";
import { simulatorAt } from "../../lib/simulator/chosen.mjs";
import { agentsPath } from "../helpers/common.mjs";
import { firstFailing, groupOf } from "../helpers/groups.mjs";
import { CHECKER } from "../helpers/needs.mjs";
import { boardAt } from "../helpers/started-boards.mjs";

const { ASKS, WAITS, WAITS_TIMED, WOKEN, FINISHED } = PHASE;

/** @param {number[]} phases of agents @param {object} row that is wanted */
const boardBy = (phases, row) => boardAt(phases, { timeouts: 1, row: { wantsRow: true, ...row } });

/** Who gets the turn, if it is passed on so many times. */
function drawn(board, times) {
  for (let time = 0; time < times; time += 1) board.pass(board.words[WORD.LAST]);
  return board.row.own();
}

test("a row is followed, entries of agents that can't move are left out, and a wait's time may be up", () => {
  const board = boardBy([ASKS, WAITS, WAITS_TIMED, FINISHED, WOKEN], { row: [4, 1, 2, 3, 0, 4, 4] });
  assert.deepEqual(drawn(board, 5), [4, 2, 0, 4, 4]);
});

test("behind its end the agent goes on that moved last, then the next one in number that can", () => {
  const board = boardBy([ASKS, WAITS_TIMED, WAITS, ASKS], { row: [0] });
  assert.deepEqual(drawn(board, 3), [0, 0, 0]);
  board.line.become(0, FINISHED);
  assert.deepEqual(drawn(board, 2), [0, 0, 0, 3, 3]);
  board.line.become(0, WOKEN);
  board.line.become(3, WAITS);
  assert.deepEqual(drawn(board, 1).slice(5), [0]);
  // Now nothing is left but the end of a time.
  board.line.become(0, FINISHED);
  assert.deepEqual(drawn(board, 1).slice(6), [1]);
  board.line.become(1, FINISHED);
  board.pass(1);
  assert.equal(board.end.result().ending, "deadlock");
  assert.deepEqual(drawn(boardBy([ASKS, ASKS], { row: [] }), 2), [0, 0]);
});

test("an agent that goes on and on behind the row's end leaves the turn to others at last", () => {
  const row = drawn(boardBy([ASKS, ASKS, WAITS_TIMED], { row: [1] }), 1_500);
  assert.deepEqual([...new Set(row)].sort(), [0, 1]);
  const longest = row.join("").match(/0+|1+/g).map(({ length }) => length);
  assert.ok(Math.max(...longest) < 999, `${longest}`);
  assert.ok(Math.min(...longest.slice(0, -1)) >= 100, `${longest}`);
});

test("a row that can't be followed exactly ends the run, and the row says why", () => {
  const diverged = (phases, row, times) => {
    const board = boardBy(phases, { row, isExact: true });
    drawn(board, times);
    return [board.end.hasEnded() && board.end.result().ending, board.row.diverged()];
  };
  const divergence = (reason, agent, draw, able, wanted) =>
    ["failed", { reason, agent, draw, able, ...(wanted === undefined ? {} : { wanted }) }];
  assert.deepEqual(diverged([ASKS, WAITS], [0, 1], 2), divergence("waits", 1, 1, [0], 1));
  assert.deepEqual(diverged([ASKS, FINISHED], [0, 0, 1], 3), divergence("ended", 1, 2, [0], 1));
  assert.deepEqual(diverged([ASKS, WOKEN], [1], 2), divergence("goes on", 0, 1, [0, 1]));
  assert.deepEqual(diverged([WAITS_TIMED, FINISHED], [], 1), divergence("goes on", 0, 0, []));
  assert.deepEqual(diverged([WAITS, FINISHED], [0], 1), divergence("waits", 0, 0, [], 0));
  assert.deepEqual(diverged([WAITS, FINISHED], [], 1), ["deadlock", undefined]);
  assert.deepEqual(diverged([FINISHED, FINISHED], [], 1), ["finished", undefined]);
});

test("a real answer may be left out of a row on which its agent makes no move", () => {
  const exactly = (phases, row) => boardBy(phases, { row, isExact: true });
  const one = REAL_ANSWER + 1;
  assert.deepEqual(drawn(exactly([ASKS, WAITS], [one, 0, one]), 1), [0]);
  const needed = exactly([ASKS, WAITS], [one, 1]);
  drawn(needed, 1);
  assert.deepEqual(needed.row.diverged(), { reason: "waits", agent: 1, draw: 0, able: [0], wanted: one });
  // What comes besides is let in before another answer, or if the agent makes no more moves.
  const comes = (row) => {
    const board = exactly([ASKS, ASKS], row);
    board.pass(0);
    return [board.answered(1), board.row.diverged()?.reason];
  };
  assert.deepEqual([comes([0, one, 1]), comes([0, 0]), comes([0, 0, one])], Array(3).fill([true, undefined]));
  assert.deepEqual(comes([0, 1]), [false, "comes"]);
});

test("an agent that waits for real answers looks before a run diverges, and isn't drawn for one in vain", () => {
  const board = boardBy([ASKS, WAITS], { row: [0, 1], isExact: true });
  board.answers.expect(1);
  board.pass(0);
  board.line.become(0, WAITS);
  board.pass(0);
  assert.deepEqual([board.words[WORD.LOOKS], board.row.diverged()], [1, undefined]);
  board.polledInVain(1);
  board.pass(1);
  assert.equal(board.row.diverged()?.reason, "waits");
});

test("two rows are of the same run if each agent moves on the same answers", () => {
  const [one, two] = [REAL_ANSWER, REAL_ANSWER + 1];
  for (const [row, made] of [[[one, one, 0], [one, 0]], [[one, 1, one, 0], [1, one, 0]], [[0, 1, two], [0, 1]]]) {
    assert.deepEqual([firstOtherMove(row, made), firstOtherMove(made, row)], [undefined, undefined], `${row}; ${made}`);
  }
  assert.equal(firstOtherMove([1, one, 0], [one, 1, 0]), 0);
  assert.equal(firstOtherMove([one, 0, 0], [0, 0]), 0);
  assert.deepEqual([firstOtherMove([0, 1], [0]), firstOtherMove([0], [0, 1])], [1, 1]);
});

test("time and chance come from the seed, whatever the row is", async (context) => {
  const group = await groupOf(context, agentsPath("by-chance"));
  /** What the agents drew, and what time it was for each at its end. */
  const made = async (wanted) => {
    const { outcome } = await group.one({ seed: 5, whole: true, wantsRow: true, ...wanted });
    const words = new Int32Array(Uint8Array.from(Buffer.from(outcome.bytes[0], "hex")).buffer);
    return { outcome, numbers: words.slice(0, 6), times: words.slice(6, 9) };
  };
  const free = await made({});
  const exact = await made({ row: free.outcome.row, isExact: true });
  assert.equal(exact.outcome.script, free.outcome.script);
  assert.deepEqual(exact.times, free.times);
  const inNumber = await made({ row: [] });
  assert.notDeepEqual(inNumber.outcome.row, free.outcome.row);
  assert.deepEqual(inNumber.numbers, free.numbers);
  assert.equal(new Set(free.numbers).size, 6);
  assert.notDeepEqual((await made({ seed: 6, row: [] })).numbers, free.numbers);
});

const KNOWN = new URL("../known/", import.meta.url);
const EXAMPLES = new URL("../../examples/", import.meta.url);

// Programs that fail in each of the ways that can be shortened.
const SHORTENED = [
  ...["condition-if", "deque-takes-twice", "lock-order", "lost-update", "missed-notify", "publish-early"],
  ...["ring-frees-first", "semaphore-load-store", "ticket-drawn-twice"],
].map((name) => new URL(`${name}.mjs`, KNOWN));
SHORTENED.push(new URL("mutex-naive.agents.mjs", EXAMPLES));

/** The run of a program's seed is the same where it is made by its row. */
async function demandSame(group) {
  const { outcome: free } = await group.one({ seed: 1, whole: true, wantsRow: true });
  const again = { seed: 1, whole: true, wantsRow: true, row: free.row, isExact: true };
  const { outcome: forced, aside } = await group.one(again);
  assert.equal(aside.divergence, undefined, forced.detail);
  assert.equal(forced.script, free.script);
  assert.deepEqual([forced.report, forced.ending, forced.row], [free.report, free.ending, free.row]);
  assert.deepEqual(keptScript(free.script, "it").draws.map(({ agent }) => agent), free.row);
}

/** The shortest run ends as the first one did, isn't longer, and the simulator says the same of it. */
async function demandShorter(group) {
  const first = await firstFailing(group);
  const { shortest, shortened: { runs, changes, calls, unchanged } } = await shorten(group, first);
  assert.ok(runs > 1 && runs <= 400, `${runs}`);
  if (shortest === undefined) {
    assert.equal(unchanged, "no shorter one was found");
    return;
  }
  const { outcome, judgement } = shortest;
  assert.equal(outcome.ending, first.ending);
  if (first.ending === "race") assert.ok(outcome.races.some(({ lines }) => `${lines}` === `${first.races[0].lines}`));
  assert.ok(changes.after < changes.before || (changes.after === changes.before && calls.after <= calls.before));
  assert.equal(outcome.row.filter((agent, at) => at > 0 && agent !== outcome.row[at - 1]).length, changes.after);
  assert.deepEqual([calls.before, calls.after], [first.calls, outcome.calls]);
  assert.deepEqual([typeof outcome.trace, outcome.seed], ["string", first.seed]);
  assert.ok(checkedBy(simulatorAt(CHECKER), { outcome, judgement }).checked);
}

describe("examples and wrong programs by their rows", { concurrency: 3 }, () => {
  for (const name of readdirSync(EXAMPLES).filter((each) => each.endsWith(".agents.mjs"))) {
    it(`${name} does the same again`, async (context) => demandSame(await groupOf(context, new URL(name, EXAMPLES))));
  }

  for (const url of SHORTENED) {
    const name = url.pathname.split("/").at(-1);
    it(`${name} is shortened`, async (context) => {
      const { setup: { agents } } = await import(url.href);
      // Examples have pilots, as most programs do. They take twice as many workers.
      const everywhere = url.href.startsWith(KNOWN.href);
      await demandShorter(await groupOf(context, url, { agents, everywhere }));
    });
  }
});
