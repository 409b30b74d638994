// The process of a trial that other code asks for. It ends with the process that has started it.

import { isExpected, messageOf } from "../command/problems.mjs";
import { RunFailed } from "./run-failed.cjs";
import { tried } from "./trial.mjs";

/**
 * @typedef {object} TrialRequest
 * @property {import("./trial.mjs").AnyTrialOptions} options
 * @property {string} [folder] from which a relative path of the module is taken
 * @property {string} [place] where the trial is asked for
 * @property {string} [name] of its test
 */

/** @param {TrialRequest} asked @returns {Promise<import("./trial-apart.cjs").Reply>} */
async function replyTo({ options, folder, place, name }) {
  try {
    return { end: "passed", text: await tried(options, { folder: () => folder, place, name }) };
  } catch (problem) {
    if (problem instanceof RunFailed) return { end: "failed", text: problem.message };
    return { end: isExpected(problem) ? "refused" : "defect", text: messageOf(problem) };
  }
}

process.on("disconnect", () => process.exit());
process.once("message", async (asked) => {
  process.send?.(await replyTo(asked), () => process.exit());
});
