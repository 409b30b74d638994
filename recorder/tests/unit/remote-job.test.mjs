// A job in a process of its own: what is known of its runs when the process ends. The process here is one that only
// sends what a test has it send.

import assert from "node:assert/strict";
import { EventEmitter } from "node:events";
import { test } from "node:test";
import { LostJob, RemoteJob } from "../../lib/seeds/remote-job.mjs";

/** A process that sends nothing by itself. */
class Child extends EventEmitter {
  pid = undefined;
  connected = false;
  send() {}
}

/** @param {number} seed @param {object} more */
const outcomeOf = (seed, more) => ({ seed, ending: "deadlock", fails: true, ...more });

const FAILING = outcomeOf(3, { checked: false, unchecked: "the process of its job ended before it was checked" });
const CHECKED = outcomeOf(3, { checked: true });

/**
 * What a job that is asked for runs hands out.
 * @param {object[]} messages that its process sends before it ends
 */
async function handedOutFor(messages) {
  const child = new Child();
  const job = new RemoteJob(child);
  const outcomes = [];
  const made = job.run([{ seed: 3, whole: true }, { seed: 4, whole: true }], (outcome) => outcomes.push(outcome));
  for (const message of messages) child.emit("message", message);
  child.emit("exit", null, "SIGKILL");
  const failure = await made.then(() => undefined, (problem) => problem);
  return { outcomes, failure };
}

test("a failing run is handed out if its job's process ends before it is checked", async () => {
  const { outcomes, failure } = await handedOutFor([{ failing: FAILING }]);
  assert.deepEqual(outcomes, [FAILING]);
  assert.ok(failure instanceof LostJob);
});

test("a failing run that was checked is handed out once, as it was checked", async () => {
  const { outcomes, failure } = await handedOutFor([{ failing: FAILING }, { outcome: CHECKED }]);
  assert.deepEqual(outcomes, [CHECKED]);
  assert.ok(failure instanceof LostJob);
});

test("a failing run that is no finding isn't handed out when the process ends later", async () => {
  const failed = { kind: "KeepsGlobals", message: "keeps something in globals" };
  const { outcomes, failure } = await handedOutFor([{ failing: FAILING }, { failed }]);
  assert.deepEqual(outcomes, []);
  assert.equal(failure.message, failed.message);
});

test("a process that ends by itself leaves no failing run behind, if there was none", async () => {
  const passed = { ...outcomeOf(3, { checked: true }), ending: "finished", fails: false };
  const { outcomes, failure } = await handedOutFor([{ outcome: passed }]);
  assert.deepEqual(outcomes, [passed]);
  assert.ok(failure instanceof LostJob);
});

test("a job whose process can't be started is lost, and says why", async () => {
  const child = new Child();
  // Node gives it no channel then.
  child.send = undefined;
  const job = new RemoteJob(child);
  const made = assert.rejects(job.open({}), (problem) =>
    problem instanceof LostJob && problem.message === "a job's process can't be started: spawn EMFILE");
  child.emit("error", new Error("spawn EMFILE"));
  await made;
  await job.close();
});
