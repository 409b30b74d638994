// Turns, waiters, who moves next, and ends, in one thread: the board as its threads would use it.

import assert from "node:assert/strict";
import { once } from "node:events";
import { test } from "node:test";
import { Worker } from "node:worker_threads";
import { Board } from "../../lib/board/board.mjs";
import { STEP } from "../../lib/board/clock.mjs";
import { JOIN, LEAVE, MAKE, TIME_UP } from "../../lib/board/journal.mjs";
import { waysOf } from "../../lib/board/strategy/ways.mjs";
import { Turn } from "../../lib/board/turn.mjs";
import { ORDER, PHASE, WORD } from "../../lib/memory/layout.mjs";
import { boardAt } from "../helpers/started-boards.mjs";

/** Who gets the turn, if it is passed on many times. */
function drawn(board, from, times) {
  const turns = [];
  let turn = from;
  for (let time = 0; time < times; time += 1) {
    board.pass(turn);
    turn = board.words[WORD.LAST];
    turns.push(turn);
  }
  return turns;
}

const HERE = [0, 4];

test("a notify wakes the oldest waiters of its place, as many as its count", () => {
  const wake = (count) => {
    const board = boardAt([PHASE.RUNS, PHASE.RUNS, PHASE.RUNS, PHASE.RUNS]);
    for (const agent of [2, 0, 1]) board.line.join(agent, ...HERE, false);
    const woken = board.line.notify(...HERE, count);
    return [woken, ...[0, 1, 2].filter((agent) => board.line.phase(agent) === PHASE.WOKEN)];
  };
  assert.deepEqual(wake(1), [1, 2]);
  assert.deepEqual(wake(2), [2, 0, 2]);
  assert.deepEqual(wake(9), [3, 0, 1, 2]);
  assert.deepEqual(wake(undefined), [3, 0, 1, 2]);
  assert.deepEqual(wake(0), [0]);
  assert.deepEqual(wake(-1), [0]);
});

test("places of equal bytes in different blocks, and of different bytes, have lines of their own", () => {
  const board = boardAt([PHASE.RUNS, PHASE.RUNS, PHASE.RUNS]);
  board.line.join(0, 1, 4, false);
  board.line.join(1, 0, 8, false);
  assert.equal(board.line.notify(...HERE, undefined), 0);
  assert.equal(board.line.notify(0, 8, undefined), 1);
  assert.deepEqual(board.line.waiting(), [{ agent: 0, block: 1, byte: 4 }]);
});

test("agents move that ask, that were woken, or that wait with a timeout, and all of them in time", () => {
  const phases = [PHASE.ASKS, PHASE.WAITS, PHASE.WAITS_TIMED, PHASE.FINISHED, PHASE.WOKEN];
  assert.deepEqual([...new Set(drawn(boardAt(phases), 4, 500))].sort(), [0, 2, 4]);
});

test("the end of a wait's time is offered in a share of the draws, and always if nothing else can move", () => {
  const timesUp = (phases, timeouts) =>
    drawn(boardAt(phases, { timeouts }), 1, 4_000).filter((agent) => phases[agent] === PHASE.WAITS_TIMED).length;
  const two = [PHASE.ASKS, PHASE.WAITS_TIMED];
  // Where it is offered, it is one of two: 4,000 draws, times the share, times a half.
  assert.equal(timesUp(two, 0), 0);
  assert.ok(Math.abs(timesUp(two, 0.05) - 100) < 50, `${timesUp(two, 0.05)}`);
  assert.ok(Math.abs(timesUp(two, 1) - 2_000) < 200, `${timesUp(two, 1)}`);
  assert.equal(timesUp([PHASE.WAITS, PHASE.WAITS_TIMED], 0), 4_000);
});

test("with switch:0 an agent goes on as long as it can, and with switch:1 never if another can", () => {
  const asking = [PHASE.ASKS, PHASE.ASKS, PHASE.ASKS];
  const switching = (likelihood) => ({ ways: waysOf(`switch:${likelihood}`, true) });
  assert.equal(new Set(drawn(boardAt(asking, switching(0)), 2, 50)).size, 1);
  const turns = drawn(boardAt(asking, switching(1)), 2, 50);
  turns.forEach((turn, at) => assert.notEqual(turn, turns[at - 1]));
  assert.equal(new Set(drawn(boardAt([PHASE.ASKS, PHASE.FINISHED], switching(1)), 1, 5)).size, 1);
});

test("a run in which no agent can move has finished, or is a deadlock if an agent waits", () => {
  const end = (phases, rules) => {
    const board = boardAt(phases, rules);
    board.pass(0);
    return board.end.result().ending;
  };
  assert.equal(end([PHASE.FINISHED, PHASE.FINISHED]), "finished");
  assert.equal(end([PHASE.FINISHED, PHASE.WAITS]), "deadlock");
  assert.equal(end([PHASE.ASKS, PHASE.WAITS], { maxMoves: 2 }), "limit");
});

test("moves and calls are counted as a script has them, and time goes on by them", () => {
  const board = boardAt([PHASE.RUNS, PHASE.RUNS]);
  for (const [agent, event] of [[0, MAKE], [1, JOIN], [0, MAKE], [1, LEAVE], [1, JOIN], [1, TIME_UP], [0, JOIN]]) {
    board.did(agent, event);
  }
  const moves = 3 + 2 + 3 + 2 + 2 + 2 + 2;
  assert.equal(board.journal.moves(), moves);
  assert.deepEqual(board.journal.progress(0), { returned: 2, calls: 3 });
  assert.deepEqual(board.journal.progress(1), { returned: 2, calls: 2 });
  const passed = board.clock.look();
  assert.ok(Math.abs(passed - (moves + 1) * STEP) < STEP / 100, `${passed}`);
});

test("the time goes on to the end of a wait whose time is up, and never back", () => {
  const { clock } = boardAt([PHASE.RUNS, PHASE.RUNS]);
  clock.setDeadline(0, 50);
  clock.setDeadline(1, -3);
  clock.reachDeadline(0);
  const passed = clock.look();
  assert.ok(passed >= 50 && passed < 51, `${passed}`);
  clock.reachDeadline(1);
  assert.ok(clock.look() > passed);
});

test("an agent whose worker died ends the run when it has the turn, and only then", () => {
  const { turn, end } = boardAt([PHASE.ASKS, PHASE.ASKS]);
  turn.leave(1);
  turn.die(0, "one");
  assert.equal(turn.enter(1), true);
  turn.leave(1);
  turn.die(1, "two");
  assert.deepEqual(end.result(), { ending: "failed", detail: "agent 1's worker died: two" });
  assert.equal(turn.enter(1), false);
  assert.equal(turn.isBack(1, 0), false);
});

test("an agent that died before it gets the turn fails the run, with what it died of", () => {
  const board = boardAt([PHASE.ASKS, PHASE.FINISHED]);
  board.turn.die(0, "out of memory");
  board.pass(1);
  assert.deepEqual(board.end.result(), { ending: "failed", detail: "agent 0's worker died: out of memory" });
});

test("an earlier run's state starts no agent: an agent begins once for each order", () => {
  const board = boardAt([PHASE.ASKS, PHASE.ASKS]);
  const first = board.turn.awaitStart(0, 0);
  board.turn.wake(0);
  board.order(ORDER.CHECK, 0);
  const second = board.turn.awaitStart(0, first);
  assert.notEqual(second, first);
  assert.equal(board.ordered(), ORDER.CHECK);
});

/** An agent that sleeps until it is sent home. It takes long to learn that, or learns it at once and goes on. */
const SLEEPER = `
  import { workerData } from "node:worker_threads";
  const { url, words, reasons, flags, isSlow } = workerData;
  const { Turn } = await import(url);
  const turn = new Turn(words, Buffer.from(reasons), {}, 1);
  turn.call(0);
  Atomics.store(flags, 0, 1);
  Atomics.notify(flags, 0);
  turn.sleep(0);
  if (!isSlow) turn.acknowledgeEnd(0);
  Atomics.wait(flags, 1, 0, isSlow ? 500 : Infinity);
  turn.becomeIdle(0);
`;

for (const isSlow of [true, false]) {
  const name = isSlow ? "an agent that sleeps is waited for until it has learnt that its run is over"
    : "an agent that goes on when it has learnt that isn't waited for long";
  test(name, async () => {
    const { words: shared, reasons } = Board.memory();
    const words = new Int32Array(shared);
    const turn = new Turn(words, Buffer.from(reasons), undefined, 1);
    const flags = new Int32Array(new SharedArrayBuffer(8));
    const url = new URL("../../lib/board/turn.mjs", import.meta.url).href;
    const module = new URL(`data:text/javascript,${encodeURIComponent(SLEEPER)}`);
    const worker = new Worker(module, { workerData: { url, words, reasons, flags, isSlow } });
    await Atomics.waitAsync(flags, 0, 0).value;
    turn.cancel(0);
    const begun = performance.now();
    assert.equal(turn.isBack(0, 100), isSlow);
    const took = performance.now() - begun;
    Atomics.store(flags, 1, 1);
    Atomics.notify(flags, 1);
    await once(worker, "exit");
    assert.ok(isSlow || took < 5_000, `${took} ms`);
    assert.equal(turn.isBack(0, 0), true);
  });
}

test("a script has room for 64 views, and for so much text", () => {
  const board = boardAt([PHASE.RUNS]);
  for (let key = 0; key < 64; key += 1) assert.equal(board.journal.registers(key), true);
  assert.equal(board.journal.registers(64), false);
  assert.equal(board.journal.registers(63), true);
  assert.equal(board.journal.takesText(1_000_000), true);
  assert.equal(board.journal.takesText(1_000_000), false);
});
