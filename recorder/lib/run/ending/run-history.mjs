// The history of a run: what its agents have told about their operations, in the order in which these were made. An
// operation's interval is the narrowest that its acts allow: it begins with its first call of Atomics, and ends with
// its last one.

import { READ } from "../../memory/log.mjs";

/** @typedef {import("../../memory/log.mjs").Log} Log */
/** @typedef {import("../../memory/operation-list.mjs").OperationMark} OperationMark */
/** @typedef {import("../../objects/history.mjs").HistoryEvent} HistoryEvent */

/**
 * @typedef {object} PlacedEvent
 * @property {number} at where the log has the act
 * @property {HistoryEvent} event
 * @property {number[]} calls where the log has all acts of the operation
 */

/** @typedef {(agent: number, event: number) => string | undefined} LineOf the line of a call in the log, if known */

/** An operation without an act comes just before an event of the log. */
const BETWEEN = 0.5;

/** @param {Log} log @returns {number[][]} of each agent where its calls are in the log */
function callsIn(log) {
  /** @type {number[][]} */
  const calls = [];
  for (let event = 0; event < log.length; event += 1) {
    if (log.whatAt(event) >= READ) continue;
    calls[log.agentAt(event)] ??= [];
    calls[log.agentAt(event)].push(event);
  }
  return calls;
}

/**
 * @param {OperationMark[]} marks of an agent
 * @param {number[]} all where its calls are in the log
 * @param {number} agent
 * @returns {PlacedEvent[]}
 */
function placed(marks, all, agent) {
  /** @type {PlacedEvent[]} */
  const events = [];
  for (let at = 0; at < marks.length; at += 1) {
    const mark = marks[at];
    if (!("call" in mark)) continue;
    const next = marks[at + 1];
    const ends = next !== undefined && "outcome" in next ? next : undefined;
    const calls = all.filter((call) => call >= mark.event && (ends === undefined || call < ends.event));
    // An operation that is open and has made no act hasn't begun.
    if (calls.length === 0 && ends === undefined) continue;
    const between = mark.event - BETWEEN;
    events.push({ at: calls[0] ?? between, event: { agent, call: mark.call }, calls });
    if (ends === undefined) continue;
    events.push({ at: calls.at(-1) ?? between, event: { agent, outcome: ends.outcome }, calls });
  }
  return events;
}

/**
 * @param {PlacedEvent} placed
 * @param {PlacedEvent | undefined} next
 * @param {LineOf} lineOf
 * @returns {HistoryEvent} with the line of the operation's last act before the next event
 */
function withLine({ event, calls }, next, lineOf) {
  const last = calls.filter((call) => event.call === undefined || next === undefined || call < next.at).at(-1);
  const line = last === undefined ? undefined : lineOf(event.agent, last);
  return line === undefined ? event : { ...event, line };
}

/**
 * @param {OperationMark[][]} marks of each agent
 * @param {Log} log
 * @param {LineOf} lineOf
 * @returns {HistoryEvent[]}
 */
export function historyOf(marks, log, lineOf) {
  const calls = callsIn(log);
  // The sort is stable: an agent's operations without an act are at one place, in their order.
  const events = marks.flatMap((own, agent) => placed(own, calls[agent] ?? [], agent))
    .sort((one, other) => one.at - other.at);
  return events.map((one, at) => withLine(one, events[at + 1], lineOf));
}
