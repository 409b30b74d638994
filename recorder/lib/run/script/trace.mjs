// The trace of a run: each of its events as an object of JSON, a line each. It is what another program needs to judge
// anew whether the run has unordered accesses.

import { flat } from "../../../script/flat.mjs";
import { CALLS } from "../../../script/kinds.mjs";
import { SCRIPT_LIMITS } from "../../../script/limits.mjs";
import { LEAVE, TIME_UP } from "../../board/journal.mjs";
import { FLAG, NO_CALL, WRITE } from "../../memory/log.mjs";

/** @param {import("../../memory/log.mjs").LogEvent} event @returns {string} what an event is called */
function nameOf({ what, method }) {
  if (what === LEAVE) return "leave";
  if (what === TIME_UP) return "time-up";
  if (method !== NO_CALL) return CALLS[method].name;
  return what === WRITE ? "write" : "read";
}

// The text of what comes again in many lines is made once, in one piece.

/** From an agent to the number of its call. */
const AGENTS = Array.from({ length: SCRIPT_LIMITS.agents }, (_, agent) => flat(`,"agent":${agent},"call":`));

/** The flags that a line has. */
const FLAGS = FLAG.READS | FLAG.WRITES | FLAG.ATOMIC | FLAG.WAITERS;

/**
 * @param {import("../../memory/log.mjs").LogEvent} event
 * @returns {string} from what it is called to the place in the code
 */
function deedText(event) {
  const { block, from, to, flags } = event;
  return `,"does":"${nameOf(event)}","block":${block},"byte":${from},"size":${to - from}` +
    `,"read":${(flags & FLAG.READS) !== 0},"write":${(flags & FLAG.WRITES) !== 0},` +
    `"atomic":${(flags & FLAG.ATOMIC) !== 0},"waiters":${(flags & FLAG.WAITERS) !== 0},"source":`;
}

/** The texts of the last events, each in a slot of its own or in place of another one. */
class KnownDeeds {
  static SLOTS = 1_024;
  static WORDS = 4;

  #texts = Array.from({ length: KnownDeeds.SLOTS }, () => "");
  #words = new Int32Array(KnownDeeds.SLOTS * KnownDeeds.WORDS);

  /** @param {import("../../memory/log.mjs").Log} log @param {number} position @returns {string} the same of an event */
  at(log, position) {
    const deed = log.whatAt(position) | (log.methodAt(position) << 4) | ((log.flagsAt(position) & FLAGS) << 8);
    const block = log.blockAt(position);
    const from = log.fromAt(position);
    const to = log.toAt(position);
    const slot = (Math.imul(deed, 73) + Math.imul(block, 37) + Math.imul(from, 5) + to) & (KnownDeeds.SLOTS - 1);
    const words = this.#words;
    const at = slot * KnownDeeds.WORDS;
    const isKnown = words[at] === deed && words[at + 1] === block && words[at + 2] === from && words[at + 3] === to;
    if (isKnown && this.#texts[slot] !== "") return this.#texts[slot];
    words[at] = deed;
    words[at + 1] = block;
    words[at + 2] = from;
    words[at + 3] = to;
    return (this.#texts[slot] = flat(deedText(log.at(position))));
  }
}

const DEEDS = new KnownDeeds();

/**
 * The first line of a trace that may lack accesses of its run. It is no event. So `sabsim judge --trace` refuses such a
 * trace: if it found no data race in it, that would say nothing about the run.
 */
export const UNSEEN_LINE =
  unseenLine("ordinary accesses may be missing here, so these events don't show whether any are unordered");

/** @param {string} unseen why a verdict on the trace could be wrong @returns {string} a first line that is no event */
export function unseenLine(unseen) {
  return `${JSON.stringify({ unseen })}\n`;
}

// So many lines are put into one piece at once: the pieces of a million lines take much memory.
const JOINED = 1_024;

/**
 * The events of a run, a line each.
 * @param {import("../../memory/log.mjs").Log} log
 * @param {string[][]} [sources] the positions of each agent's code, by their numbers; without, none is reported
 * @returns {string}
 */
export function traceText(log, sources = []) {
  const ends = sources.map((list) => list.map((source) => `${JSON.stringify(source || null)}}\n`));
  if (log.length <= JOINED) return linesFrom(log, 0, ends);
  const parts = [];
  for (let first = 0; first < log.length; first += JOINED) parts.push(flat(linesFrom(log, first, ends)));
  return parts.join("");
}

// What a line ends with that has no position of code.
const NO_SOURCE = "null}\n";

/**
 * The lines of some events: what JSON.stringify makes of each as an object, faster. A trace may have a million lines.
 * @param {import("../../memory/log.mjs").Log} log
 * @param {number} first
 * @param {string[][]} ends the positions of each agent's code in JSON, to the ends of their lines
 */
function linesFrom(log, first, ends) {
  const behind = Math.min(first + JOINED, log.length);
  let lines = "";
  for (let position = first; position < behind; position += 1) {
    const agent = log.agentAt(position);
    const end = ends[agent]?.[log.sourceAt(position)] ?? NO_SOURCE;
    lines += `{"event":${position}${AGENTS[agent]}${log.callAt(position)}${DEEDS.at(log, position)}${end}`;
  }
  return lines;
}

/**
 * The places of the agents' code that a trace names.
 * @param {import("../../memory/log.mjs").Log} log
 * @param {string[][]} sources the positions of each agent's code, by their numbers
 * @returns {Set<string>}
 */
export function placesIn(log, sources) {
  const places = new Set();
  for (let position = 0; position < log.length; position += 1) {
    const place = sources[log.agentAt(position)]?.[log.sourceAt(position)] ?? "";
    if (place !== "") places.add(place);
  }
  return places;
}
