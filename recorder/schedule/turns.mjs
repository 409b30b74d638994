// The turns of a schedule. A turn has the moves of one draw: an access, or the beginning or end of a wait. Then come
// the stores for what the agent wrote ordinarily before its next call. Such stores that don't follow a draw, and those
// of `init`, are a turn of their own, which is fixed.

import { isStandIn } from "./report-entries.mjs";

/** @typedef {import("./report-entries.mjs").ReportEntry} ReportEntry */
/** @typedef {number | { timeout: number }} ScheduleMove as a script has it */

/**
 * @typedef {object} Script
 * @property {{ block: boolean, calls: (string | number)[][] }[]} agents
 * @property {ScheduleMove[]} schedule
 */

/**
 * @typedef {object} ScheduleTurn
 * @property {number} agent
 * @property {boolean} timeUp whether it ends the time of a wait
 * @property {boolean} isFixed whether it has only stores
 * @property {ScheduleMove[]} moves as the schedule had them when the turn was made
 */

/**
 * Whether a move belongs to the turn of the move before it.
 * @param {ReportEntry} entry of the move
 * @param {ReportEntry | undefined} before
 */
function goesOn({ agent, what, does }, before) {
  if (before?.agent !== agent || before.what === "stuck") return false;
  if (what === "begin") return before.what === "return" && isStandIn(does);
  return what === "act" || what === "wait" || what === "return";
}

/**
 * The turns of a schedule.
 * @param {Script} script
 * @param {ReportEntry[]} entries of its replay, one for each move
 * @returns {ScheduleTurn[]}
 */
export function turnsOf({ schedule }, entries) {
  /** @type {ScheduleTurn[]} */
  const turns = [];
  schedule.forEach((move, at) => {
    const { agent, does } = entries[at];
    if (goesOn(entries[at], entries[at - 1])) turns[turns.length - 1].moves.push(move);
    else turns.push({ agent, timeUp: typeof move === "object", isFixed: isStandIn(does), moves: [move] });
  });
  return turns;
}
