// The helpers of a program's run, the agents of its script that stand for Atomics.waitAsync: what they are called, and
// which events are theirs. In the trace their waits are those of the threads, and nothing is handed over.

import { isStandIn } from "../../schedule/report-entries.mjs";
import { handOverOf, helpersIn } from "../../script/helpers.mjs";

/** @typedef {import("../../schedule/report-entries.mjs").ReportEntry} ReportEntry */

const WORD_BYTES = 4;

/**
 * @param {{ name: string }[]} views of the script
 * @param {string[]} threads each thread's file and where it was started; empty: it is the program's module
 * @param {string} module the name of its file
 * @returns {string[]} what each helper is called, in their order
 */
export function helperNames(views, threads, module) {
  const all = [...helpersIn(views)].sort(([one], [other]) => one - other);
  return all.map(([, owner]) => `waitAsync of agent ${owner} (${threads[owner] || module})`);
}

/**
 * The events of a trace as the script has them: with those that hand waits over too; each with its agent there, and
 * with the number of that agent's call (`inScript`).
 * @param {any[]} events
 * @param {ReportEntry[]} entries of the script's report: those that act, wait and leave
 * @returns {any[]} the events themselves if the script has no helpers
 */
export function eventsInScript(events, entries) {
  const calls = entries.filter(({ does }) => !isStandIn(does));
  if (!calls.some(({ does }) => handOverOf(does) !== undefined)) return events;
  /** @type {number[]} how many calls of each agent have begun */
  const begun = [];
  let next = 0;
  const taken = () => {
    const { agent, what } = calls[next];
    next += 1;
    begun[agent] = (begun[agent] ?? 0) + (what === "leave" ? 0 : 1);
    return { agent, call: begun[agent] - 1 };
  };
  /** @param {any} event of the wait @param {boolean} begins */
  const handedOver = (event, begins) => {
    const all = [];
    while (handOverOf(calls[next]?.does ?? [])?.begins === begins) {
      const { place } = calls[next];
      const inScript = taken();
      const notify = { does: "notify", ...place, size: WORD_BYTES, read: false, atomic: false };
      all.push({ ...event, ...inScript, inScript, ...notify });
    }
    return all;
  };
  return events.flatMap((event) => {
    const { agent, does } = event;
    if (does === "read" || does === "write") return [{ ...event, inScript: { agent, call: begun[agent] ?? 0 } }];
    const before = handedOver(event, true);
    if (calls[next] === undefined) return [event];
    return [...before, { ...event, inScript: taken() }, ...handedOver(event, false)];
  });
}
