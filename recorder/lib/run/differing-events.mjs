// The first act by which two runs of a seed differ, as their logs have it.

import { READ } from "../memory/log.mjs";

/** @typedef {import("../memory/log.mjs").Log} Log */
/** @typedef {import("../memory/log.mjs").LogEvent} LogEvent */

/** @param {Log} log @returns {LogEvent[]} the acts of calls: a log that notes lines may lack some ordinary reads */
function actsOf(log) {
  return Array.from({ length: log.length }, (_, event) => log.at(event)).filter(({ what }) => what < READ);
}

/** @param {LogEvent} [act] @returns {string} what it does, and where */
const deedOf = (act) =>
  (act === undefined ? "" : [act.what, act.agent, act.kind, act.method, act.block, act.from, act.to].join(" "));

/**
 * @param {Log} before the run that was made first
 * @param {Log} again the other one
 * @returns {LogEvent | undefined} of the other run the first act that the first run hasn't, or the last one that both
 * have, if it has no more
 */
export function firstDifferent(before, again) {
  const [firsts, others] = [actsOf(before), actsOf(again)];
  const at = others.findIndex((act, index) => deedOf(act) !== deedOf(firsts[index]));
  if (at >= 0) return others[at];
  return firsts.length > others.length ? others[others.length - 1] : undefined;
}
