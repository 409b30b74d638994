// Runs that are the same byte for byte as one that was replayed and judged: what counts as the same, and what is
// replayed all the same.

import assert from "node:assert/strict";
import { readFileSync } from "node:fs";
import { join } from "node:path";
import { describe, it } from "node:test";
import { pathToFileURL } from "node:url";
import { checkedBy } from "../../lib/check/check.mjs";
import { Difference } from "../../lib/check/difference.mjs";
import { CheckedRuns, MOST_CHECKED_RUNS } from "../../lib/check/checked-runs.mjs";
import { checkedOptions } from "../../lib/library/library-options.mjs";
import { ModuleSimulator } from "../../lib/simulator/module.mjs";
import { moduleOf, shellProgram, temporaryFolder } from "../helpers/common.mjs";
import { jobOutcomes } from "../helpers/job-runs.mjs";
import { withShell } from "../helpers/needs.mjs";
import { SIMULATOR_WORDS } from "../helpers/simulate.mjs";

const RACE_STATUS = 5;

/** A simulator that gives the answer that it was made with, and counts how often it is asked. */
class Answering {
  asked = 0;
  replay = { status: 0, output: "report\n", complaint: "" };
  judge = { status: 0, output: "no data race\n", complaint: "" };

  /** @param {{ job: string }} job */
  run({ job }) {
    this.asked += 1;
    return job === "replay" ? this.replay : this.judge;
  }
}

const SEEDS = [1, 2, 3];

/** The outcomes of a job's runs. @param {{ module: string, sabsim?: string }} options */
function checkedRuns({ module, sabsim }) {
  const options = checkedOptions({ module: pathToFileURL(module) }, () => undefined);
  return jobOutcomes({ ...options, fresh: false, sabsim }, SEEDS);
}

/** A run as a group hands it on. @param {{ seed?: number, script?: string, report?: string }} outcome */
const runOf = (outcome = {}, judgement = {}) => ({
  outcome: { seed: 1, script: "script\n", report: "report\n", races: [], ...outcome },
  judgement: { racy: false, events: Int32Array.of(0, 0, 0, 0, 4, 0, 0, 1), isInScript: true, ...judgement },
  aside: {},
});

describe("runs that repeat", () => {
  it("one that is the same byte for byte isn't replayed again, whatever its seed is", () => {
    const [simulator, repeats] = [new Answering(), new CheckedRuns()];
    for (let seed = 1; seed <= 5; seed += 1) {
      const checked = checkedBy(simulator, runOf({ seed }), 1, repeats);
      assert.deepEqual([checked.seed, checked.checked, simulator.asked], [seed, true, 2]);
    }
  });

  it("without a list of them each run is replayed and judged", () => {
    const simulator = new Answering();
    for (let seed = 1; seed <= 3; seed += 1) checkedBy(simulator, runOf({ seed }));
    assert.equal(simulator.asked, 6);
  });

  it("a run that differs in its script, report, accesses or verdict is another one", () => {
    const others = {
      script: runOf({ script: "script \n" }),
      accesses: runOf({}, { events: Int32Array.of(0, 0, 0, 0, 8, 0, 0, 1) }),
      place: runOf({}, { isInScript: false }),
      none: { ...runOf(), judgement: undefined },
    };
    for (const [what, other] of Object.entries(others)) {
      const [simulator, repeats] = [new Answering(), new CheckedRuns()];
      checkedBy(simulator, runOf(), 1, repeats);
      checkedBy(simulator, other, 1, repeats);
      assert.equal(simulator.asked, what === "none" ? 3 : 4, what);
    }
  });

  it("another report of the same script is a difference, as is another verdict", () => {
    const others = { report: runOf({ report: "other\n" }), verdict: runOf({}, { racy: true }) };
    for (const [what, other] of Object.entries(others)) {
      const repeats = new CheckedRuns();
      checkedBy(new Answering(), runOf(), 1, repeats);
      for (let again = 0; again < 2; again += 1) {
        assert.throws(() => checkedBy(new Answering(), other, 1, repeats), Difference, what);
      }
    }
  });

  it("a run that didn't pass isn't remembered", () => {
    const repeats = new CheckedRuns();
    const wrong = { ...new Answering(), run: () => ({ status: RACE_STATUS, output: "", complaint: "" }) };
    assert.throws(() => checkedBy(wrong, runOf(), 1, repeats), Difference);
    const simulator = new Answering();
    checkedBy(simulator, runOf(), 1, repeats);
    assert.equal(simulator.asked, 2);
  });

  it("when runs hardly repeat, none is remembered any more; else those that are stay", () => {
    for (const times of [1, 3]) {
      const [simulator, repeats] = [new Answering(), new CheckedRuns()];
      const each = (report) => {
        simulator.replay = { status: 0, output: report, complaint: "" };
        return checkedBy(simulator, runOf({ report }), 1, repeats);
      };
      for (let run = 0; run < MOST_CHECKED_RUNS; run += 1) {
        for (let time = 0; time < times; time += 1) each(`${run}\n`);
      }
      assert.equal(simulator.asked, 2 * MOST_CHECKED_RUNS);
      each("0\n");
      assert.equal(simulator.asked, times === 1 ? 2 * MOST_CHECKED_RUNS + 2 : 2 * MOST_CHECKED_RUNS);
      each("new\n");
      each("new\n");
      assert.equal(simulator.asked, 2 * MOST_CHECKED_RUNS + (times === 1 ? 6 : 4));
    }
  });

  it("a long run isn't remembered", () => {
    const [simulator, repeats] = [new Answering(), new CheckedRuns()];
    const script = "x".repeat(20_000);
    for (let time = 0; time < 2; time += 1) checkedBy(simulator, runOf({ script }), 1, repeats);
    assert.equal(simulator.asked, 4);
  });

  it("a job asks the module once about runs that repeat, the native program about each", withShell, async (test) => {
    const folder = temporaryFolder(test);
    const module = moduleOf(test, `export const setup = { agents: 1, buffers: [4] };
      export default ({ buffers: [buffer] }) => Atomics.add(new Int32Array(buffer), 0, 1);`);
    const native = shellProgram(folder, `echo asked >> '${folder}/asked'\nexec ${SIMULATOR_WORDS} "$@"`);
    const asked = test.mock.method(ModuleSimulator.prototype, "run");
    const outcomes = [...await checkedRuns({ module }), ...await checkedRuns({ module, sabsim: native })];
    assert.deepEqual(outcomes.map(({ checked }) => checked), Array(2 * SEEDS.length).fill(true));
    assert.equal(new Set(outcomes.map(({ script, report }) => `${script}${report}`)).size, 1);
    assert.ok(outcomes[0].script);
    const ofModule = asked.mock.calls.filter(({ arguments: [, input] }) => input === outcomes[0].script);
    const ofNative = readFileSync(join(folder, "asked"), "utf8").split("\n").length - 1;
    assert.deepEqual([ofModule.length, ofNative], [2, 2 * SEEDS.length]);
  });
});
