// The check of a run: the simulator replays its script, and judges its accesses.

import { firstDifference } from "../../script/report.mjs";
import { Log } from "../memory/log.mjs";
import { traceText } from "../run/script/trace.mjs";
import { NoSabsim } from "../simulator/native.mjs";
import { Difference } from "./difference.mjs";

/** @typedef {import("../run/outcome.mjs").One} One */
/** @typedef {import("../run/outcome.mjs").Outcome} Outcome */
/** @typedef {import("../simulator/chosen.mjs").ChosenSimulator} ChosenSimulator */

/**
 * @typedef {object} Check
 * @property {boolean} checked whether the simulator has replayed the run, and judged whether it has unordered accesses,
 * with the same result; or has done so before with a run that is the same byte for byte
 * @property {string} [unchecked] why it hasn't
 */

// The status of a verdict that lists unordered accesses. The recorder finds the same ones, also those that are no data
// race by ECMA-262.
const FOUND_UNORDERED = 5;

/**
 * Asks the simulator. If it stops in the middle, that is no answer.
 * @param {ChosenSimulator} simulator
 * @param {import("../simulator/module.mjs").SimulatorJob} job
 * @param {string} input
 * @param {string} what it is asked about
 * @returns {{ status?: number | null, output: string, failure: string }} with the failure that another status is
 * @throws {NoSabsim}
 */
function asked(simulator, job, input, what) {
  try {
    const { status, output, complaint } = simulator.run(job, input);
    return { status, output, failure: `sabsim ended with status ${status} on the ${what}: ${complaint.trim()}` };
  } catch (error) {
    if (error instanceof NoSabsim) throw error;
    return { output: "", failure: `sabsim failed on the ${what}: ${error instanceof Error ? error.message : error}` };
  }
}

/**
 * Replays a run, and compares every answer, how far each agent came, and the bytes at the end.
 * @param {ChosenSimulator} simulator
 * @param {Outcome} outcome
 * @throws {Difference}
 */
function checkReplay(simulator, { seed, script = "", report = "", choices }) {
  const { status, output, failure } = asked(simulator, { job: "replay" }, script, "script");
  /** @param {string[]} lines */
  const differs = (...lines) => {
    const run = { seed, script, report, ...(choices && { choices }) };
    return new Difference(`seed ${seed}: ${lines.join("\n")}`, run, output);
  };
  if (status !== 0) throw differs(failure);
  const difference = firstDifference(report, output);
  if (difference === undefined) return;
  const { line, recorded, replayed } = difference;
  throw differs(
    `the code and sabsim differ, in line ${line} of the report`, `  the code: ${recorded}`, `  sabsim:   ${replayed}`,
  );
}

/**
 * Judges the accesses of a run: those of its script, or of its trace if the script hasn't all of them.
 * @param {ChosenSimulator} simulator
 * @param {Outcome} outcome
 * @param {import("../run/outcome.mjs").Judgement} judgement the recorder's
 * @throws {Difference}
 */
function checkRaces(simulator, outcome, { racy, events, isInScript }) {
  const { seed, script = "", report = "", races, choices } = outcome;
  const traced = () => traceText(Log.from(events));
  const { status, output, failure } = isInScript
    ? asked(simulator, { job: "judge" }, script, "script's accesses")
    : asked(simulator, { job: "judge-trace" }, traced(), "trace");
  if (status === (racy ? FOUND_UNORDERED : 0)) return;
  /** @param {string[]} lines */
  const differs = (...lines) => {
    const scripted = { seed, script, report, ...(choices && { choices }), trace: traced() };
    return new Difference(`seed ${seed}: ${lines.join("\n")}`, scripted, report, output);
  };
  if (status !== 0 && status !== FOUND_UNORDERED) throw differs(failure);
  const found = races.length > 0 ? races[0].text : "unordered accesses";
  throw differs(
    "the recorder and sabsim differ on unordered accesses",
    `  the recorder: ${racy ? found : "no unordered accesses"}`,
    `  sabsim:       ${output.split("\n", 1)[0]}`,
  );
}

/**
 * @param {Outcome} outcome
 * @param {number} every one in how many of the runs that don't fail is checked
 * @returns {string | undefined} why it can't be checked
 */
function whyNot({ script, noScript }, every) {
  if (noScript !== undefined) return `the run has no script: ${noScript}`;
  return script === undefined ? `one in ${every} of the runs that don't fail is checked` : undefined;
}

/**
 * Checks a run if that can be done.
 * @param {ChosenSimulator | undefined} simulator undefined: the options say that runs aren't checked
 * @param {One} run
 * @param {number} [every] one in how many of the runs that don't fail is checked
 * @param {import("./checked-runs.mjs").CheckedRuns} [repeats] runs that have passed; without, each run is replayed
 * @returns {Outcome & Check}
 * @throws {Difference | NoSabsim}
 */
export function checkedBy(simulator, run, every = 1, repeats = undefined) {
  const { outcome, judgement } = run;
  if (simulator === undefined) {
    return { ...outcome, checked: false, unchecked: "the options say that sabsim isn't asked" };
  }
  const unchecked = whyNot(outcome, every);
  if (unchecked !== undefined) {
    if (outcome.noScript !== undefined && judgement !== undefined) checkRaces(simulator, outcome, judgement);
    return { ...outcome, checked: false, unchecked };
  }
  const check = () => {
    checkReplay(simulator, outcome);
    if (judgement !== undefined) checkRaces(simulator, outcome, judgement);
  };
  if (repeats === undefined) check();
  else repeats.pass(run, check);
  return { ...outcome, checked: true };
}
