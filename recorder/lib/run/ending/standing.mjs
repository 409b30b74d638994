// Where agents are that haven't ended when their run is over: which wait, and which ask for a call.

import { ownCalls } from "../script/transcript.mjs";

/** @typedef {import("../../../script/text.mjs").Transcript} Transcript */

/**
 * @typedef {object} Wait
 * @property {number} agent
 * @property {string} name of the place at which it waits
 * @property {number} call which of the agent's calls it is
 * @property {string} text the call, as a script spells it
 * @property {number} inScript its number there
 * @property {string} source the line of code; empty if it isn't known
 * @property {{ place: string | null, block: number, byte: number }} at that place, as a program can use it
 */

/**
 * @typedef {object} Standing where an agent is that hasn't ended, as a program can use it
 * @property {number} agent
 * @property {"waits" | "asks" | "spins" | "runs"} does it waits for a notify, asks for a call, has met a limit by doing
 * the same again and again, or by something else
 * @property {number | null} call in which it waits, or which it asks for, counted from 0; null: it is in none
 * @property {string | null} place at which it waits, by its name; null: it doesn't wait, or the place has no name
 * @property {number | null} block of that place
 * @property {number | null} byte of that place
 * @property {string | null} file of the line of code; null: it isn't known
 * @property {number | null} line
 * @property {number | null} column
 */

/**
 * Which agents wait where.
 * @param {{ agent: number, block: number, byte: number }[]} waiting in order of arrival
 * @param {Transcript} transcript
 * @param {(agent: number) => string} sourceOf the line of code at which an agent is; empty if it isn't known
 * @returns {Wait[]}
 */
export function waitsOf(waiting, transcript, sourceOf) {
  return waiting.map(({ agent, block, byte }) => {
    const calls = ownCalls(transcript, agent);
    const call = calls.length - 1;
    const { text, inScript, name: place = null } = calls[call];
    const name = place ?? `byte ${byte} of block ${block}`;
    return { agent, name, call, text, inScript, source: sourceOf(agent), at: { place, block, byte } };
  });
}

/** @param {Wait} wait @returns {string} */
export function waitText({ agent, name, call, text, inScript, source }) {
  const where = source === "" ? "" : `, at ${source}`;
  const there = inScript === call ? "" : `, which is ${inScript} in the script`;
  return `agent ${agent} waits at ${name}: its call ${call}, ${text}${where}${there}`;
}

/**
 * Which agents asked for a call, a line for each whose line of code is known.
 * @param {number[]} asking
 * @param {Transcript} transcript
 * @param {(agent: number) => string} sourceOf as above
 * @returns {string[]}
 */
export function askingLines(asking, transcript, sourceOf) {
  return asking.filter((agent) => sourceOf(agent) !== "").map((agent) =>
    `agent ${agent} asks for its call ${ownCalls(transcript, agent).length}, at ${sourceOf(agent)}`);
}

const NOWHERE = Object.freeze({ place: null, block: null, byte: null });

/** @param {string} source empty: it isn't known */
function lineOf(source) {
  const [, file, line, column] = /^(.*):(\d+):(\d+)$/.exec(source) ?? [];
  if (file === undefined) return { file: null, line: null, column: null };
  return { file, line: Number(line), column: Number(column) };
}

/**
 * What each agent is at when nobody can go on, or a limit is met.
 * @param {{ met?: import("../../board/end.mjs").Met, waits: Wait[], asking: number[] }} found
 * @param {Transcript} transcript
 * @param {(agent: number) => string} sourceOf as above
 * @returns {Standing[]} the one that has met the limit first, then those that wait, in order of arrival
 */
export function standingsOf({ met, waits, asking }, transcript, sourceOf) {
  /** @type {Standing[]} */
  const atLimit = met === undefined ? [] : [{
    agent: met.agent, does: met.spins ? "spins" : "runs", call: null, ...NOWHERE, ...lineOf(sourceOf(met.agent)),
  }];
  return [
    ...atLimit,
    ...waits.map(({ agent, call, at, source: own }) =>
      ({ agent, does: /** @type {"waits"} */ ("waits"), call, ...at, ...lineOf(own) })),
    ...asking.map((agent) => {
      const call = ownCalls(transcript, agent).length;
      return { agent, does: /** @type {"asks"} */ ("asks"), call, ...NOWHERE, ...lineOf(sourceOf(agent)) };
    }),
  ];
}
