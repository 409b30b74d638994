// The messages of a program's run, in its report: each is sent by a notify at a place of its own, and received by
// another one there.

import { handOverOf } from "../../script/helpers.mjs";
import { MESSAGES } from "../memory/blocks.mjs";

/** @typedef {import("../../schedule/report-entries.mjs").ReportEntry} ReportEntry */

const WORD_BYTES = 4;

/**
 * Which thread has sent each message.
 * @param {ReportEntry[]} entries of the run's report
 * @returns {number[] | undefined} by the numbers of messages; undefined: a place has served for several
 */
export function sendersIn(entries) {
  /** @type {number[][]} */
  const agents = [];
  for (const { what, does, does: [name], place, agent } of entries) {
    if (what !== "act" || name !== "notify" || place?.block !== MESSAGES || handOverOf(does) !== undefined) continue;
    (agents[place.byte / WORD_BYTES] ??= []).push(agent);
  }
  return agents.some((each) => each.length > 2) ? undefined : agents.map(([sender]) => sender);
}
