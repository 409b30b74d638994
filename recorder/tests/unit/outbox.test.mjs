// Messages of a job's process: which outcomes go together, and when.

import assert from "node:assert/strict";
import { test } from "node:test";
import { setImmediate as nextTurn } from "node:timers/promises";
import { LONG_MILLISECONDS, MOST_OUTCOMES, Outbox } from "../../lib/seeds/outbox.mjs";

/** An outbox, and what it has sent, with the lists of outcomes that passed. */
function outboxOf() {
  const sent = [];
  const send = ({ passed, ...rest }) => sent.push(passed === undefined ? rest : { passed: JSON.parse(passed) });
  return { outbox: new Outbox(send), sent };
}

/**
 * A clock that stands still, so that it doesn't matter how long this thread is kept waiting.
 * @param {import("node:test").TestContext} context
 */
function stoppedClock(context) {
  const clock = { now: 1_000 };
  context.mock.method(performance, "now", () => clock.now);
  return clock;
}

/** @param {number} seed @returns {object} an outcome of a run that has passed */
const passing = (seed) =>
  ({ seed, ending: "finished", fails: false, detail: "é\n", state: { named: null }, races: [] });

/** @param {number} first @param {number} count */
const outcomes = (first, count) => Array.from({ length: count }, (_, at) => passing(first + at));

test("outcomes that come together go together, as soon as nothing else is to be done", async (context) => {
  stoppedClock(context);
  const { outbox, sent } = outboxOf();
  for (const outcome of outcomes(1, 3)) outbox.add(outcome);
  assert.deepEqual(sent, []);
  await nextTurn();
  assert.deepEqual(sent, [{ passed: outcomes(1, 3) }]);
  outbox.add(passing(4));
  await nextTurn();
  assert.deepEqual(sent.slice(1), [{ passed: outcomes(4, 1) }]);
  await nextTurn();
  assert.equal(sent.length, 2);
});

test("so many go at once, whatever else is to be done", (context) => {
  stoppedClock(context);
  const { outbox, sent } = outboxOf();
  for (const outcome of outcomes(1, 2 * MOST_OUTCOMES + 1)) outbox.add(outcome);
  assert.deepEqual(sent, [1, MOST_OUTCOMES + 1].map((first) => ({ passed: outcomes(first, MOST_OUTCOMES) })));
});

test("if a check takes long, no further outcome is waited for", (context) => {
  const clock = stoppedClock(context);
  const { outbox, sent } = outboxOf();
  outbox.add(passing(1));
  clock.now += LONG_MILLISECONDS;
  outbox.add(passing(2));
  assert.deepEqual(sent, []);
  clock.now += 1;
  outbox.add(passing(3));
  assert.deepEqual(sent, [{ passed: outcomes(1, 3) }]);
});

test("another message goes at once, behind the outcomes before", async () => {
  const { outbox, sent } = outboxOf();
  outbox.put({ done: 1 });
  outbox.add(passing(1));
  outbox.put({ failing: { seed: 2 } });
  const all = [{ done: 1 }, { passed: outcomes(1, 1) }, { failing: { seed: 2 } }];
  assert.deepEqual(sent, all);
  await nextTurn();
  assert.deepEqual(sent, all);
});

test("an outcome that fails or has long texts goes at once as it is, behind those before", () => {
  const { outbox, sent } = outboxOf();
  const alone = [{ fails: true }, { script: "{}" }, { trace: "" }].map((more, at) => ({ ...passing(at + 2), ...more }));
  outbox.add(passing(1));
  for (const outcome of alone) outbox.add(outcome);
  assert.deepEqual(sent, [{ passed: outcomes(1, 1) }, ...alone.map((outcome) => ({ outcome }))]);
});
