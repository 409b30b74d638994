// A history: which operations of an object agents have begun and ended, in their order; and what the monitor finds of
// it.

import { NOT_JUDGED, NO_ORDER } from "./monitor.mjs";
import { historyTable } from "./history-table.mjs";

/** @typedef {{ agent: number, call: number, outcome?: undefined, line?: string }} BeginEvent */
/** @typedef {{ agent: number, call?: undefined, outcome: string, line?: string }} EndEvent the line of its last act */
/** @typedef {BeginEvent | EndEvent} HistoryEvent */

/**
 * @typedef {object} WatchedObject
 * @property {import("./object-calls.mjs").ObjectCall[]} calls
 * @property {import("./monitor.mjs").Monitor} monitor
 * @property {{ texts: string[], numberOf: (outcome: string) => number }} outcomes
 */

/** @typedef {"not linearizable" | "lost wake-up" | "blocked" | "limit"} HistoryEnding */

/**
 * @typedef {object} Verdict
 * @property {HistoryEnding} ending
 * @property {string} detail lines: what was found, and the operations
 * @property {string} about what was found, in short, so that runs that fail alike are counted together
 */

const TOO_MANY = "its history isn't judged: it needs more than 65,536 states of the model, or 100,000 configurations";

const LOST = "for ever, and in every order that fits some operation that waits could go on";

/** @param {string[]} outcomes @returns {string} */
function outcomesText(outcomes) {
  if (outcomes.length === 0) return "has to wait";
  const areReturned = outcomes.every((one) => one.startsWith("returns "));
  const list = areReturned ? outcomes.map((one, at) => (at === 0 ? one : one.slice("returns ".length))) : outcomes;
  return list.join(" or ");
}

/**
 * @param {WatchedObject} object
 * @param {HistoryEvent[]} events
 * @returns {{ set: number, before: number, at: number }} the monitor's set behind them, or behind the first one that
 * doesn't fit; the set before it; its position
 */
function followed({ monitor, outcomes }, events) {
  let set = monitor.first;
  for (let at = 0; at < events.length; at += 1) {
    const before = set;
    const { agent, call, outcome } = events[at];
    set = call === undefined ? monitor.ends(set, agent, outcomes.numberOf(outcome)) : monitor.begins(set, agent, call);
    if (set <= NO_ORDER) return { set, before, at };
  }
  return { set, before: set, at: events.length };
}

/** @param {HistoryEvent[]} events @returns {Map<number, number>} of each agent with an open operation, its call */
function openIn(events) {
  /** @type {Map<number, number>} */
  const open = new Map();
  for (const { agent, call } of events) {
    if (call === undefined) open.delete(agent);
    else open.set(agent, call);
  }
  return open;
}

/**
 * @param {WatchedObject} object
 * @param {HistoryEvent[]} events
 * @param {{ before: number, at: number }} found where it doesn't fit
 * @returns {Verdict}
 */
function notLinearizable({ calls, monitor, outcomes }, events, { before, at }) {
  const { agent, outcome } = /** @type {EndEvent} */ (events[at]);
  const { name, text: call } = calls[/** @type {number} */ (openIn(events.slice(0, at)).get(agent))];
  const fitting = monitor.outcomesIn(before, agent).map((number) => outcomes.texts[number]);
  const what = `${call} ${outcome}, and in every order that fits it ${outcomesText(fitting)}`;
  const detail = [what, ...historyTable(calls, events.slice(0, at + 1))].join("\n");
  return { ending: "not linearizable", detail, about: `\`${name}\` ends as in no order of the operations that fits` };
}

/**
 * What the monitor finds of a run's history.
 * @param {WatchedObject} object
 * @param {HistoryEvent[]} events
 * @param {string} ending how the run has ended otherwise
 * @returns {Verdict | undefined} undefined: nothing that changes how it ends
 */
export function verdictOf(object, events, ending) {
  const { calls, monitor } = object;
  const found = followed(object, events);
  if (found.set === NO_ORDER) return notLinearizable(object, events, found);
  if (found.set === NOT_JUDGED) return { ending: "limit", detail: TOO_MANY, about: TOO_MANY };
  if ((ending !== "deadlock" && ending !== "limit") || !monitor.hasOpen(found.set)) return undefined;
  if (monitor.isRightlyBlocked(found.set)) return { ending: "blocked", detail: "", about: "" };
  if (ending === "limit") return undefined;
  const waiting = [...openIn(events).values()].map((call) => calls[call]);
  const who = waiting.map(({ text }) => text).join(" and ");
  const what = `${who} ${waiting.length === 1 ? "waits" : "wait"} ${LOST}`;
  const detail = [what, ...historyTable(calls, events)].join("\n");
  const names = [...new Set(waiting.map(({ name }) => `\`${name}\``))].sort().join(" and ");
  return { ending: "lost wake-up", detail, about: `${names} could go on, and waits for ever` };
}
