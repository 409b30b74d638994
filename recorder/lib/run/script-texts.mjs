// What an outcome has of a run's script: the script and its report, or why there is none, and what its calls returned.

import { reportText } from "../../script/report.mjs";

/** @typedef {import("./outcome.mjs").OutcomeScript} OutcomeScript */
/** @typedef {import("./script/script-within-limits.mjs").ScriptWithinLimits} ScriptWithinLimits */

/**
 * The bytes at the end and the answers.
 * @param {ScriptWithinLimits} fitted
 * @param {string[]} bytes of each block at the end, in hexadecimal digits
 * @param {number} agents how many make calls of their own
 * @returns {Pick<OutcomeScript, "bytes" | "answers">}
 */
export function answersOf({ transcript }, bytes, agents) {
  const own = Array.from({ length: agents }, (_, agent) => transcript.calls[agent].filter(({ isOwn }) => isOwn));
  return { bytes, answers: own.map((calls) => calls.map((call) => (call.standsFor ?? call).answer)) };
}

/**
 * The script and its report, or why there is none.
 * @param {ScriptWithinLimits} fitted
 * @returns {Pick<OutcomeScript, "script" | "scriptHolds" | "report" | "noScript">}
 */
export function textsOf({ transcript, script, holds, bytes = [], noScript }) {
  if (script === undefined) return { noScript };
  return { script, scriptHolds: holds, report: reportText(transcript, bytes) };
}
