// How a run has diverged from the row that it was to go by, in words.

import { isRealAnswer } from "../../board/drawn-schedule.mjs";
import { NOBODY } from "../../memory/layout.mjs";

/**
 * Why a run that has diverged has ended, in words.
 * @param {import("../../board/drawn-schedule.mjs").Divergence} divergence
 * @param {string} call that the agent makes, or what it asks for, if that is why
 */
export function divergenceText({ reason, agent, wanted = NOBODY }, call) {
  if (reason === "comes") return `agent ${agent} gets a real answer, and the row has none there`;
  if (reason === "waits" && isRealAnswer(wanted)) return `by the row agent ${agent} gets a real answer, ` +
    "and now it gets none";
  if (reason === "call") return `agent ${agent} makes another call than by the row: ${call}`;
  if (reason === "choice") return `agent ${agent} asks for another choice than is given: ${call}`;
  if (reason === "goes on") return `the row has come to its end, and agent ${agent} goes on`;
  if (reason === "leaves") return `agent ${agent} is to make a call by the row, and goes on from a wait`;
  return `agent ${agent} is to move by the row, and ${reason === "waits" ? "waits" : "has come to its end"}`;
}
