// Limits of waits: time in which the process gets no processor hardly counts.

import assert from "node:assert/strict";
import { test } from "node:test";
import { Board } from "../../lib/board/board.mjs";
import { waysOf } from "../../lib/board/strategy/ways.mjs";
import { Patience } from "../../lib/processes/patience.mjs";
import { sleep } from "../../lib/processes/sleep.mjs";
import { within } from "../../lib/processes/within.mjs";

/**
 * A clock that the test moves, in place of the machine's.
 * @param {import("node:test").TestContext} context
 */
function ownClock(context) {
  const clock = { now: 0 };
  const { now } = performance;
  performance.now = () => clock.now;
  context.after(() => { performance.now = now; });
  return clock;
}

test("a step counts as long as it lasts, and no longer than it was to last", (context) => {
  const clock = ownClock(context);
  const patience = new Patience(1);
  assert.equal(patience.step, 100);
  const after = (milliseconds) => {
    clock.now += milliseconds;
    return patience.isOver();
  };
  assert.deepEqual(Array.from({ length: 10 }, () => after(99)), Array(10).fill(false));
  assert.equal(after(9), false);
  assert.equal(after(1), true);
  patience.renew();
  // The process didn't go on for an hour at a time.
  assert.deepEqual(Array.from({ length: 10 }, () => after(3_600_000)), [...Array(9).fill(false), true]);
  assert.equal(new Patience(0.2).step, 50);
});

test("a promise is awaited for longer if the process doesn't go on", async () => {
  const never = new Promise(() => {});
  const begun = performance.now();
  assert.equal(await within(never, 0.2), undefined);
  assert.ok(performance.now() - begun >= 190);
  const waiting = within(new Promise((done) => { setTimeout(() => setTimeout(done, 5, "there"), 0); }), 0.2);
  sleep(400);
  assert.equal(await waiting, "there");
});

test("an agent is silent for too long only if its process goes on meanwhile", (context) => {
  const clock = ownClock(context);
  const rules = { agents: 2, ways: waysOf("uniform", true), maxMoves: 100, timeouts: 0 };
  const { turn } = new Board(Board.memory(), rules);
  turn.begin();
  turn.end.begin();
  turn.start(0);
  turn.leave(0);
  let steps = 0;
  // The process goes on for a moment each hour. In one of these the agent makes a call.
  turn.end.await = () => {
    clock.now += 3_600_000;
    steps += 1;
    if (steps === 7) turn.leave(0);
  };
  assert.equal(turn.awaitEnd(1), true);
  // Ten steps after that, and ten in which the agent could say where it is.
  assert.deepEqual([steps, turn.silent], [27, 0]);
  assert.deepEqual(turn.end.result(), { ending: "limit", detail: "agent 0 has made no call for 1 s" });
});

test("an agent is given its time to end in steps of its process, too", (context) => {
  const { now } = performance;
  const realNow = () => Reflect.apply(now, performance, []);
  const clock = ownClock(context);
  // An hour passes whenever somebody looks.
  performance.now = () => { clock.now += 3_600_000; return clock.now; };
  const { turn } = new Board(Board.memory(), { agents: 1, ways: waysOf("uniform", true), maxMoves: 100, timeouts: 0 });
  turn.begin();
  turn.call(0);
  turn.wake(0);
  const begun = realNow();
  assert.equal(turn.isBack(0, 200), false);
  // Three steps of 50 ms are waited for, and the fourth is counted when the wait begins.
  assert.ok(realNow() - begun >= 145);
});
