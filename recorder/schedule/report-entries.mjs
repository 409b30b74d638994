// The report of a replay, as `sabsim replay --format json` writes it (docs/FORMATS.md has its form).

import { OF_STORES } from "../script/written.mjs";

/** @typedef {{ block: number, byte: number }} Place */

/**
 * @typedef {object} ReportEntry what a move did
 * @property {number} agent
 * @property {number} entry its position in the report
 * @property {number} call the position of the agent's call
 * @property {"begin" | "act" | "wait" | "leave" | "return" | "stuck"} what
 * @property {string} [why] of an entry that is stuck
 * @property {number | string} [answer]
 * @property {(string | number)[]} does the call: its name, its view's, its index, and what else it takes; empty if the
 * agent has no call left
 * @property {Place} [place]
 * @property {number} [since]
 * @property {Record<string, any>} [found]
 */

/**
 * @typedef {{ agent: number, of: number, returned: number, standing?: Record<string, any> }} AgentProgress of an agent
 */

/**
 * @typedef {object} Report
 * @property {ReportEntry[]} entries one for each move
 * @property {string[]} blocks the bytes of each at the end, in hexadecimal digits
 * @property {AgentProgress[]} agents
 */

/** @param {string} text lines of JSON @returns {Report} */
export function readReport(text) {
  const lines = text.split("\n").filter((line) => line !== "").map((line) => JSON.parse(line));
  return {
    entries: lines.filter(({ entry }) => entry !== undefined).map((entry) => ({ does: [], ...entry })),
    blocks: lines.filter(({ bytes }) => bytes !== undefined).map(({ bytes }) => bytes),
    agents: lines.filter(({ returned }) => returned !== undefined),
  };
}

/**
 * Whether a call is a store that stands for an ordinary write, or for what `init` left.
 * @param {(string | number)[]} does
 */
export const isStandIn = ([, view]) => OF_STORES.test(`${view}`);
