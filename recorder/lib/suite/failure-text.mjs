// What a test says about a run that failed: the seed and how it ended, how it came to that, and where its files are.

import { endingText } from "../../page/endings.mjs";
import { digits } from "../run/words/summary-words.mjs";
import { lastActs } from "./last-acts.mjs";

/**
 * @param {object} about
 * @param {import("../library/record-runs.mjs").RecordedOutcome} about.outcome of the run
 * @param {number} about.passed how many runs of lower seeds didn't fail
 * @param {import("../simulator/chosen.mjs").ChosenSimulator} about.simulator
 * @param {string} about.module the URL of the agents' module
 * @param {string[]} about.kept which files are where, and which aren't kept
 * @returns {string}
 */
export function failureText({ outcome, passed, simulator, module, kept }) {
  const { seed, ending, detail, onlyIf = "" } = outcome;
  const before = passed === 0 ? "" : `; ${passed === 1 ? "the run" : `the ${digits(passed)} runs`} before it passed`;
  const lines = [...detail.split("\n"), onlyIf].filter((line) => line !== "");
  const parts = [
    [`seed ${seed}: ${endingText(ending, detail)}${before}`, ...indented(lines)],
    lastActs(outcome, { simulator, module }),
    kept,
  ];
  return parts.filter((lines) => lines.length > 0).map((lines) => lines.join("\n")).join("\n\n");
}

/** @param {string[]} lines */
const indented = (lines) => lines.map((line) => `  ${line}`);
