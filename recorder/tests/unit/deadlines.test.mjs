// Whose time is up first, on the board alone: deadlines, agents that only read the same again, and early ends.

import assert from "node:assert/strict";
import { test } from "node:test";
import { END } from "../../lib/board/deadlines.mjs";
import { waysOf } from "../../lib/board/strategy/ways.mjs";
import { PHASE, WORD } from "../../lib/memory/layout.mjs";
import { SPIN_CALLS } from "../../lib/memory/records.mjs";
import { startedBoard } from "../helpers/started-boards.mjs";

const { ASKS, FINISHED, WAITS, WOKEN } = PHASE;

/** In place of a phase: the agent waits for so many milliseconds. */
const timed = (milliseconds) => ({ milliseconds });

/**
 * A board whose agents have all been started, and are at a phase. Those that wait have begun in the order of their
 * numbers.
 * @param {(number | { milliseconds: number })[]} phases
 * @param {{ seed?: number, timeouts?: number | "never", row?: object, strategy?: string }} [how]
 */
function boardAt(phases, { timeouts = 0, row = {}, strategy = "uniform", ...how } = {}) {
  const board = startedBoard(phases.length, { ...how, timeouts, row, ways: waysOf(strategy, true) });
  phases.forEach((phase, agent) => {
    if (typeof phase === "number") board.line.become(agent, phase);
    else board.wait(agent, 0, 4, phase.milliseconds);
  });
  board.spins.watch();
  return board;
}

/** Which agent gets the turn. */
function next(board) {
  board.pass(board.words[WORD.LAST]);
  return board.end.hasEnded() ? board.end.result().ending : board.words[WORD.LAST];
}

/** Agents go on from their waits one after the other, and end. */
function order(board, count) {
  return Array.from({ length: count }, () => {
    const agent = next(board);
    board.deadlines.end(agent, 1);
    board.line.become(agent, FINISHED);
    return agent;
  });
}

/** An agent that only reads the same again. */
function spin(board, agent) {
  for (let call = 0; call < SPIN_CALLS; call += 1) board.spins.repeated(agent);
}

test("if nothing else can move, the wait with the earliest deadline ends, whatever the seed and the strategy", () => {
  for (const strategy of ["uniform", "partial-order", "switch:0", "switch:1"]) {
    for (let seed = 0; seed < 50; seed += 1) {
      for (const timeouts of [0, 0.05, 1]) {
        const board = boardAt([timed(300), timed(100), WAITS, timed(200), FINISHED], { seed, timeouts, strategy });
        assert.deepEqual(order(board, 3), [1, 3, 0]);
        assert.equal(board.deadlines.early(), undefined);
        assert.equal(next(board), "deadlock");
      }
    }
  }
});

test("of two waits with the same deadline, the one that began first ends", () => {
  const board = boardAt([FINISHED, FINISHED, FINISHED]);
  for (const agent of [2, 0, 1]) board.wait(agent, 0, 4, 100);
  // The clock stands still meanwhile.
  assert.deepEqual(order(board, 1), [2]);
});

test("a wait whose deadline has passed is drawn like all that can move, and its end isn't early", () => {
  const turns = (timeouts) => {
    const some = new Set();
    for (let seed = 0; seed < 100; seed += 1) {
      const board = boardAt([timed(100), timed(100), timed(100.5)], { seed, timeouts });
      assert.equal(next(board), 0);
      assert.equal(board.deadlines.end(0, 100), END.LAST);
      board.line.become(0, ASKS);
      some.add(next(board));
      if (board.words[WORD.LAST] === 1) assert.equal(board.deadlines.end(1, 100), END.IN_TIME);
      assert.equal(board.deadlines.early(), undefined);
    }
    return [...some].sort();
  };
  assert.deepEqual(turns(0), [0, 1]);
});

test("a wait that has no time is over at once, beside all that can move", () => {
  const some = new Set();
  for (let seed = 0; seed < 100; seed += 1) some.add(next(boardAt([ASKS, timed(0), timed(-5), timed(1)], { seed })));
  assert.deepEqual([...some].sort(), [0, 1, 2]);
});

test("a sleep on private memory lets the time of other waits pass", () => {
  const board = boardAt([ASKS, timed(100)]);
  assert.equal(board.clock.isDue(1), false);
  // Steps alone don't.
  board.clock.advance(1_000_000);
  assert.equal(board.clock.isDue(1), false);
  board.clock.pass(1);
  assert.equal(board.clock.isDue(1), true);
});

test("an agent that only reads the same again can't move beside a wait that has a time", () => {
  for (let seed = 0; seed < 50; seed += 1) {
    const board = boardAt([ASKS, timed(500), ASKS, timed(400)], { seed });
    spin(board, 0);
    assert.ok([0, 2].includes(next(board)));
    spin(board, 2);
    assert.equal(next(board), 3);
    assert.equal(board.deadlines.end(3, 400), END.LAST);
    assert.equal(board.deadlines.early(), undefined);
    // Now something has changed.
    board.spins.news();
    board.line.become(3, FINISHED);
    assert.notEqual(next(board), 1);
  }
});

test("if no wait has a timeout, all agents that read the same again are drawn", () => {
  const board = boardAt([ASKS, ASKS, WAITS]);
  spin(board, 0);
  spin(board, 1);
  assert.deepEqual([...new Set(Array.from({ length: 50 }, () => next(board)))].sort(), [0, 1]);
});

test("one call less, or one that finds something new, is no spin", () => {
  const board = boardAt([ASKS, timed(500)]);
  for (let call = 1; call < SPIN_CALLS; call += 1) board.spins.repeated(0);
  assert.equal(next(board), 0);
  board.spins.repeated(0);
  assert.equal(next(board), 1);
  board.spins.found(0);
  assert.equal(next(board), 0);
});

test("an agent that polls, asleep between, comes behind waits that end later, until something changes", () => {
  const board = boardAt([timed(1), timed(60_000)]);
  spin(board, 0);
  assert.equal(next(board), 1);
  board.spins.news();
  assert.equal(next(board), 0);
});

test("an end is early if somebody else could go on before, and the longest of a run is reported", () => {
  const board = boardAt([ASKS, timed(100), timed(5_000), timed(50), WOKEN], { timeouts: 1 });
  assert.equal(board.deadlines.early(), undefined);
  assert.equal(board.deadlines.end(1, 100), END.IN_TIME);
  assert.deepEqual(board.deadlines.early(), { milliseconds: 100, other: 0, before: "call", more: 0 });
  board.line.become(1, FINISHED);
  board.line.become(0, FINISHED);
  assert.equal(board.deadlines.end(2, 5_000), END.IN_TIME);
  assert.deepEqual(board.deadlines.early(), { milliseconds: 5_000, other: 4, before: "wait", more: 1 });
  // The clock has gone on by far more.
  board.line.become(2, FINISHED);
  assert.equal(board.deadlines.end(3, 50), END.IN_TIME);
  assert.equal(board.deadlines.early().more, 1);
  board.begin(2);
  assert.equal(board.deadlines.early(), undefined);
});

test("an end before that of another wait whose time is up sooner is early too, as a row may want it", () => {
  const board = boardAt([timed(100), timed(200)], { row: { row: [1] } });
  assert.equal(next(board), 1);
  assert.equal(board.deadlines.end(1, 200), END.IN_TIME);
  assert.deepEqual(board.deadlines.early(), { milliseconds: 200, other: 0, before: "wait", more: 0 });
});

test("behind the end of a row the earliest deadline ends, once nobody does anything new", () => {
  const board = boardAt([timed(300), ASKS, timed(100)], { row: { row: [] } });
  assert.equal(next(board), 1);
  spin(board, 1);
  assert.equal(next(board), 2);
  board.line.become(2, FINISHED);
  assert.equal(next(board), 0);
  board.line.become(0, WAITS);
  assert.equal(next(board), 1);
});

test("a wait that was woken, one that is last and one that is alone are different ends", () => {
  const ends = (phases) => boardAt(phases).deadlines.end(0, 10);
  assert.equal(ends([WOKEN, ASKS]), END.WOKEN);
  assert.equal(ends([timed(10), ASKS]), END.IN_TIME);
  assert.equal(ends([timed(10), timed(20)]), END.LAST);
  assert.equal(ends([timed(10), WAITS, FINISHED]), END.ALONE);
  // One that has no time waits for nobody.
  assert.equal(boardAt([timed(0), FINISHED]).deadlines.end(0, 0), END.IN_TIME);
});

test("with `never` a wait with a time ends by a notify alone, and one without time all the same", () => {
  const never = { timeouts: "never" };
  assert.equal(next(boardAt([timed(100), FINISHED], never)), "deadlock");
  assert.equal(next(boardAt([timed(100), ASKS], never)), 1);
  assert.equal(next(boardAt([timed(100), timed(0)], never)), 1);
  const board = boardAt([timed(100), FINISHED], never);
  assert.equal(board.line.notify(0, 4, undefined), 1);
  assert.equal(next(board), 0);
});
