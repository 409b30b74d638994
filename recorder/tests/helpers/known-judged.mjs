// The demands on a judged run of a known program. It races if the slow judge finds that in its trace. The simulator's
// module and the native program say the same about its script and trace as the recorder.

import assert from "node:assert/strict";
import { Log } from "../../lib/memory/log.mjs";
import { traceText } from "../../lib/run/script/trace.mjs";
import { simulatorAt } from "../../lib/simulator/chosen.mjs";
import { SABSIM } from "./needs.mjs";
import { eventsOfTrace, slowJudge } from "./slow-judge.mjs";

/** @typedef {import("../../lib/simulator/module.mjs").SimulatorJob} SimulatorJob */
/** @typedef {import("./known-process.mjs").Judged} Judged */

const FORMATS = /** @type {const} */ (["plain", "explained", "json", "svg", "script"]);

const simulator = simulatorAt();

/**
 * A side as the recorder reports it, of an event of the trace.
 * @param {import("./slow-judge.mjs").Event} event
 */
function sideOf({ agent, read, write, atomic, block, byte, size, call, source }) {
  const access = [...(read ? ["read"] : []), ...(write ? ["write"] : [])].join(" and ");
  return { agent, access, atomic, block, byte, size, call, source };
}

/**
 * A run has races exactly if the slow judge finds some in its trace, and the first later access is the same.
 * @param {Judged} run
 */
export function demandOfSlowJudge({ outcome: { seed, races, trace } }) {
  assert.ok(trace !== undefined, `seed ${seed} has no trace`);
  const events = eventsOfTrace(trace);
  const { races: [slow] } = slowJudge(events);
  assert.equal(races.length > 0, slow !== undefined, `seed ${seed}`);
  if (slow === undefined) return;
  const { element: _, ...later } = races[0].sides[1];
  assert.deepEqual(later, sideOf(events[slow.second.event]), `seed ${seed}`);
}

/**
 * What the simulator is asked about: the script of a run, and the trace that it judges.
 * @param {Judged} run
 */
function askedAbout({ outcome: { seed, script }, judgement }) {
  assert.ok(script !== undefined && judgement !== undefined, `seed ${seed} has no script`);
  return { script, judgement, trace: traceText(Log.from(judgement.events)) };
}

/**
 * The module replays a run to the recorder's report, and judges it as the recorder does.
 * @param {Judged} run
 */
export function demandOfModule(run) {
  const { script, trace, judgement: { racy, isInScript } } = askedAbout(run);
  assert.equal(simulator.run({ job: "replay" }, script).output, run.outcome.report);
  const { status } = simulator.run({ job: "judge-trace" }, trace);
  assert.equal(status, racy ? 5 : 0);
  // A script that hasn't all accesses is refused.
  assert.equal(simulator.run({ job: "judge" }, script).status, isInScript ? status : 1);
}

/**
 * The native program does what the module does.
 * @param {Judged} run
 */
export function demandOfNative(run) {
  const native = simulatorAt(SABSIM);
  const { script, trace } = askedAbout(run);
  /** @param {SimulatorJob} job @param {string} input */
  const compare = (job, input) => assert.deepEqual(simulator.run(job, input), native.run(job, input));
  for (const format of FORMATS) compare({ job: "replay", format }, script);
  compare({ job: "replay", format: "explained", acts: true }, script);
  compare({ job: "judge" }, script);
  compare({ job: "judge-trace" }, trace);
}
