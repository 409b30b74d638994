// The unordered accesses of a run, as they are reported.

import { FLAG } from "../../memory/log.mjs";
import { NO_NAMES } from "../../options/names.mjs";
import { deedOf, elementName, whenOf } from "../words/access-words.mjs";
import { racesOf } from "./races.mjs";
import { ownCalls } from "../script/transcript.mjs";

/**
 * @typedef {object} Side one of the two accesses
 * @property {number} agent
 * @property {"read" | "write" | "read and write"} access
 * @property {boolean} atomic
 * @property {number} block
 * @property {number} byte its first byte
 * @property {number} size how many bytes
 * @property {string} element the element on which the two meet: its name, or its view's and its index
 * @property {number} call which of the agent's calls it is; of an ordinary access, how many began before
 * @property {string | null} source file, line and column
 */

/**
 * @typedef {object} RaceReport two unordered accesses
 * @property {[string, string]} lines of code, in their order; of one that isn't known, what it did
 * @property {string} text
 * @property {[Side, Side]} sides the one that was made first before the other
 */

/**
 * What an access's flags say.
 * @param {number} flags
 */
function accessOf(flags) {
  if ((flags & FLAG.READS) && (flags & FLAG.WRITES)) return "read and write";
  return flags & FLAG.WRITES ? "write" : "read";
}

/**
 * @typedef {object} RaceContext what is needed to report races
 * @property {import("../script/transcript.mjs").TranscriptSource} run
 * @property {import("../../../script/text.mjs").Transcript} transcript
 * @property {string[][]} sources the positions of each agent's code by their numbers; empty if none were taken
 * @property {import("../words/source-names.mjs").SourceNames} sourceNames
 */

// More of one run aren't listed, but counted.
const MOST_LISTED = 1_000;

/** What is reported about accesses. What is asked for again and again is found once. */
class RaceTexts {
  /** @param {RaceContext} context */
  constructor({ run, transcript, sources, sourceNames }) {
    this.run = run;
    this.transcript = transcript;
    this.sourceNames = sourceNames;
    this.sources = sources;
    /** @type {ReturnType<typeof ownCalls>[]} each agent's own calls, in the same way */
    this.calls = [];
  }

  /**
   * The name of an access in a race: its line of code, or what it did.
   * @param {number} event
   * @param {number} byte
   */
  line(event, byte) {
    const { log } = this.run;
    const agent = log.agentAt(event);
    const source = this.#source(agent, log.sourceAt(event));
    if (source !== null) return source;
    return `agent ${agent}'s ${accessOf(log.flagsAt(event))} of ${this.#element(log.at(event), byte)}`;
  }

  /** @param {import("../../memory/log.mjs").LogEvent} event @param {number} byte on which the two meet */
  #element(event, byte) {
    return elementName(event, byte, this.run.lengths, this.run.names ?? NO_NAMES);
  }

  /** @param {number} position in the log @param {number} byte on which the two meet @returns {Side} */
  side(position, byte) {
    const event = this.run.log.at(position);
    const { agent, flags, block, from, to, call, source } = event;
    return {
      agent,
      access: accessOf(flags),
      atomic: (flags & FLAG.ATOMIC) !== 0,
      block,
      byte: from,
      size: to - from,
      element: this.#element(event, byte),
      call,
      source: this.#source(agent, source),
    };
  }

  /**
   * One side in words.
   * @param {number} position in the log
   * @param {Side} side
   */
  text(position, { agent, atomic, call, element, source }) {
    const calls = this.#ownCalls(agent);
    const where = source === null ? "" : ` at ${source}`;
    if (atomic) return `agent ${agent}'s call ${call}, ${calls[call].text}${where === "" ? "" : `,${where}`}`;
    const event = this.run.log.at(position);
    return `agent ${agent} ${deedOf(event)} ${element}${where}, ${whenOf(event, calls.length)}`;
  }

  /** @param {number} agent @param {number} number @returns {string | null} */
  #source(agent, number) {
    const place = this.sources[agent]?.[number] ?? "";
    return place === "" ? null : this.sourceNames.nameOf(place);
  }

  /** @param {number} agent */
  #ownCalls(agent) {
    this.calls[agent] ??= ownCalls(this.transcript, agent);
    return this.calls[agent];
  }
}

/**
 * The races of a run: each pair of lines of code once, and at most a thousand of them; the last one's text says how
 * many more there are.
 * @param {RaceContext} context
 * @returns {RaceReport[]} in the order of their later accesses
 */
export function raceReports(context) {
  const texts = new RaceTexts(context);
  const { log, records, lengths } = context.run;
  /** @type {RaceReport[]} */
  const listed = [];
  const pairs = new Set();
  for (const { one, other, byte } of racesOf(log, records.length, lengths.length)) {
    const [first, second] = [texts.line(one, byte), texts.line(other, byte)].sort();
    const key = `${first} ${second}`;
    if (pairs.has(key)) continue;
    pairs.add(key);
    if (listed.length === MOST_LISTED) continue;
    const [side, otherSide] = [texts.side(one, byte), texts.side(other, byte)];
    const text = `${texts.text(one, side)}; ${texts.text(other, otherSide)}`;
    listed.push({ lines: [first, second], text, sides: [side, otherSide] });
  }
  const last = listed.at(-1);
  if (last !== undefined && pairs.size > listed.length) last.text += `\nand ${pairs.size - listed.length} more`;
  return listed;
}
