// A run whose schedule was changed, as a page shows it, and what is different from the recorded run. This code doesn't
// depend on how things are shown.

import { isStandIn } from "../schedule/report-entries.mjs";
import { sizeOf, valueAt } from "./elements.mjs";
import { isOrdinary } from "./steps.mjs";
import { callText, counted, valueText } from "./words.mjs";

/** @typedef {import("../schedule/differences.mjs").Differences} Differences */
/** @typedef {import("../schedule/report-entries.mjs").Report} Report */
/** @typedef {import("../schedule/turns.mjs").Script} Script */
/** @typedef {import("./run-data.mjs").Event} Event */
/** @typedef {import("./model.mjs").Run} Run */
/** @typedef {import("./run-data.mjs").RunData} RunData */

/** @typedef {{ agent?: number, call?: number, what: string, before: string, after: string }} Line of a table */

/** @param {Report} report @param {number} agents how many are shown */
function endOf(report, agents) {
  const standings = report.agents.filter(({ agent, standing }) => agent < agents && standing !== undefined);
  const open = standings.map(({ agent }) => agent);
  const who = open.length === 1 ? `agent ${open[0]} has` : `agents ${open.join(", ")} have`;
  return {
    ending: open.length === 0 ? "every call has returned" : `${who} calls that haven't returned`,
    entries: report.entries.filter(({ what }) => what !== "begin" && what !== "return"),
    standings,
  };
}

/**
 * The data of a run with another schedule.
 * @param {RunData} data of the recorded run
 * @param {Script} script
 * @param {Report} report of the other schedule
 * @returns {RunData}
 */
export function changedData(data, script, report) {
  return { ...data, ...endOf(report, data.agents), detail: "", races: [], events: retraced(data, script, report) };
}

/**
 * The data of a script about which only its report is known.
 * @param {any} script
 * @param {Report} report
 * @returns {RunData}
 */
export function scriptData(script, report) {
  const { bytes, blocks = [bytes], views, agents } = script;
  return {
    seed: 0, module: "", detail: "", holds: "all", isWhole: true, events: [], places: [], files: [], races: [],
    arrays: [],
    blocks, agents: agents.length, ...endOf(report, agents.length),
    views: views.map((/** @type {any} */ { block = 0, offset, length, ...view }) =>
      ({ ...view, block, offset, length: length ?? Math.floor((blocks[block] - offset) / sizeOf(view)) })),
  };
}

/**
 * Events by agent and call: a call and its end; or the ordinary accesses before a call.
 * @param {Event[]} events
 */
function byCall(events) {
  /** @type {Map<string, Event[]>} */
  const map = new Map();
  for (const event of events) {
    const key = `${event.agent} ${event.call}`;
    const known = map.get(key);
    if (known === undefined) map.set(key, [event]);
    else known.push(event);
  }
  return map;
}

/**
 * The events of a trace in the order of another schedule. An agent's ordinary accesses stay between its calls. It isn't
 * known what the reads would read there.
 * @param {RunData} data of the recorded run
 * @param {Script} script
 * @param {Report} report of the other schedule
 * @returns {Event[]} none if the trace doesn't have the calls of the report
 */
function retraced({ events, agents }, script, { entries }) {
  const calls = byCall(events.filter((event) => !isOrdinary(event)));
  const ordinary = byCall(events.filter(isOrdinary).map(({ value, ...event }) => event));
  const own = script.agents.map((agent) => {
    let number = 0;
    return agent.calls.map((call) => (isStandIn(call) ? -1 : number++));
  });
  const made = Array.from({ length: agents }, (_, agent) => ordinary.get(`${agent} 0`) ?? []);
  for (const { agent, call, what, does, answer } of entries) {
    const isShown = agent < agents && !isStandIn(does) && (what === "act" || what === "wait" || what === "leave");
    if (!isShown) continue;
    const number = own[agent][call];
    const known = calls.get(`${agent} ${number}`);
    if (known === undefined) return [];
    const [begun, end = begun] = known;
    made.push([what === "leave" ? { ...end, does: answer === "ok" ? "leave" : "time-up" } : begun]);
    if (what !== "wait") made.push(ordinary.get(`${agent} ${number + 1}`) ?? []);
  }
  return made.flat();
}

/** @param {number[]} woken */
const wokenText = (woken) => (woken.length === 0 ? "wakes nobody" : `wakes ${woken.join(", ")}`);

/** @param {number | string | undefined} answer */
const answerWord = (answer) => (answer === undefined ? "no answer" : valueText(answer));

/**
 * What is different, as the lines of a table. If a notify wakes others, its answer isn't listed as well.
 * @param {Differences} differences
 * @returns {Line[]}
 */
export function callLines({ answers, woken }) {
  const wakers = new Set(woken.map(({ agent, call }) => `${agent} ${call}`));
  const rest = answers.filter(({ agent, call }) => !wakers.has(`${agent} ${call}`));
  return [
    ...woken.map(({ agent, call, does, before, after }) =>
      ({ agent, call, what: callText(does), before: wokenText(before), after: wokenText(after) })),
    ...rest.map(({ agent, call, does, before, after }) =>
      ({ agent, call, what: callText(does), before: answerWord(before), after: answerWord(after) })),
  ];
}

/**
 * The elements that differ at the end, as the lines of a table.
 * @param {Run} before
 * @param {Run} after
 * @returns {Line[]}
 */
export function elementLines(before, after) {
  const [old, now] = [before, after].map((run) => run.stateAt(run.steps.length - 1).blocks);
  const cells = new Map([before, after].flatMap(({ rows }) => rows.flatMap((row) => row.cells)).map((cell) =>
    [cell.label, cell]));
  return [...cells.values()].flatMap((cell) => {
    const [was, is] = [old, now].map((blocks) => valueAt(blocks[cell.block], cell));
    return was === is ? [] : [{ what: `${cell.label} at the end`, before: was, after: is }];
  });
}

/** @param {Differences} differences @returns {string} what is different, in a sentence */
export function differenceText({ answers, woken, bytes }) {
  const count = bytes.reduce((sum, { before }) => sum + before.length / 2, 0);
  const parts = [
    counted(answers.length, "call has another answer", "calls have another answer"),
    counted(woken.length, "notify wakes other agents", "notifies wake other agents"),
    counted(count, "byte differs at the end", "bytes differ at the end"),
  ];
  const differing = parts.filter((part) => !part.startsWith("0 "));
  if (differing.length === 0) return "Every answer, every wake-up and every byte at the end is the same.";
  return `${differing.join("; ")}.`;
}

/**
 * The marks of steps, by their entries.
 * @param {Line[]} lines
 * @param {Report} report
 * @returns {Map<number, string>}
 */
export function marksOf(lines, { entries }) {
  const words = new Map(lines.map(({ agent, call, before }) => [`${agent} ${call}`, `before: ${before}`]));
  const ends = entries.filter(({ what }) => what === "act" || what === "leave");
  return new Map(ends.flatMap(({ agent, call, entry }) => {
    const word = words.get(`${agent} ${call}`);
    return word === undefined ? [] : [[entry, word]];
  }));
}
