// What is reported about the ends of timed waits: that a run fails only after an early one; and which waits of a run
// ended only because their time was up, as a wait does whose wake-up is lost.

import { CALL_NUMBERS } from "../../../script/kinds.mjs";
import { FLAG } from "../../memory/log.mjs";

/** @typedef {import("../../memory/log.mjs").Log} Log */
/** @typedef {{ block: number, byte: number }} WaitPlace at which agents wait: a byte, at which an element begins */

/**
 * @typedef {object} OnlyByTime a wait that ended only because its time was up: nothing else could move, and its word
 * had changed, or no other agent could ever go on
 * @property {number} agent
 * @property {string | null} line of its code: file, line and column; null: it isn't known
 * @property {number} milliseconds its timeout, without a fraction
 * @property {number} block
 * @property {number} byte
 */

const { wait: WAIT, notify: NOTIFY } = CALL_NUMBERS;

const SECOND = 1_000;

/** @param {number} milliseconds @returns {string} as people write it, with few digits: 500 ms, 0.25 ms, 5 s */
export function durationText(milliseconds) {
  const [count, unit] = milliseconds < SECOND ? [milliseconds, "ms"] : [milliseconds / SECOND, "s"];
  return `${Number(count.toPrecision(3))} ${unit}`;
}

/** @param {import("../../board/deadlines.mjs").Early} early @returns {string} what a run needs, in words */
export function earlyText({ milliseconds, other, before, more }) {
  const duration = durationText(milliseconds);
  const pass = /^1 /.test(duration) ? "passes" : "pass";
  const next = before === "wait" ? `agent ${other} goes on` : `agent ${other}'s next ${before}`;
  const further = more === 0 ? "" : ` (and ${more === 1 ? "1 more wait ends" : `${more} more waits end`} early)`;
  return `only if ${duration} ${pass} before ${next}${further}`;
}

/** @param {WaitPlace} place @returns {string} a key for it */
export const waitPlaceKey = ({ block, byte }) => `${block} ${byte}`;

/**
 * The waits of a run that ended only because their time was up, those of one line once.
 * @param {Log} log
 * @param {import("../../memory/records.mjs").Records[]} records of each agent
 * @param {(agent: number, source: number) => string | null} lineOf an agent's line of code, by its number
 * @returns {OnlyByTime[]}
 */
export function onlyByTimeOf(log, records, lineOf) {
  /** @type {Map<string, OnlyByTime>} */
  const found = new Map();
  for (let position = 0; position < log.length; position += 1) {
    if ((log.flagsAt(position) & FLAG.ONLY_BY_TIME) === 0) continue;
    const { agent, call, source, block, from: byte } = log.at(position);
    const milliseconds = records[agent].callAt(call).limit ?? 0;
    const key = `${agent} ${source} ${milliseconds} ${waitPlaceKey({ block, byte })}`;
    if (!found.has(key)) found.set(key, { agent, line: lineOf(agent, source), milliseconds, block, byte });
  }
  return [...found.values()];
}

/**
 * The places at which agents wait and that others notify or write: a wait at another place is a sleep.
 * @param {Log} log
 * @returns {WaitPlace[]}
 */
export function servedOf(log) {
  /**
   * @type {Map<string, { place: WaitPlace, to: number, agents: number }>} the word's end, and a bit for each that waits
   */
  const waiters = new Map();
  for (let position = 0; position < log.length; position += 1) {
    if (log.methodAt(position) !== WAIT) continue;
    const place = { block: log.blockAt(position), byte: log.fromAt(position) };
    const known = waiters.get(waitPlaceKey(place)) ?? { place, to: 0, agents: 0 };
    known.to = Math.max(known.to, log.toAt(position));
    known.agents |= 1 << log.agentAt(position);
    waiters.set(waitPlaceKey(place), known);
  }
  return [...waiters.values()].filter((waited) => isServed(log, waited)).map(({ place }) => place);
}

/** @param {Log} log @param {{ place: WaitPlace, to: number, agents: number }} waited where the agents wait */
function isServed(log, { place: { block, byte }, to, agents }) {
  for (let position = 0; position < log.length; position += 1) {
    if (log.blockAt(position) !== block || agents === 1 << log.agentAt(position)) continue;
    const isNotified = log.methodAt(position) === NOTIFY && log.fromAt(position) === byte;
    const isWritten = (log.flagsAt(position) & FLAG.WRITES) !== 0
      && log.fromAt(position) < to && byte < log.toAt(position);
    if (isNotified || isWritten) return true;
  }
  return false;
}
