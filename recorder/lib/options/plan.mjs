// What a run is made of: how many agents, which buffers, who can block. It comes from the options, and what they leave
// open comes from the export `setup` of the agents' module.

import { SCRIPT_LIMITS } from "../../script/limits.mjs";
import { isIntegerWithin } from "./named-place.mjs";
import { checkedNames } from "./names.mjs";
import { meant, slipOf } from "./nearest.mjs";
import { Refused } from "./refused.mjs";

// What a module's `setup` can say.
const SETUP = ["agents", "buffers", "noBlock", "names"];

// What a module of agents can export besides its agent.
const EXPORTS = ["setup", "init", "check"];

/**
 * @typedef {object} Plan
 * @property {number} agents how many
 * @property {number[]} buffers the length of each in bytes
 * @property {boolean[]} canBlock of each agent
 * @property {import("./names.mjs").NamedView[]} names of words and of arrays
 */

/** @param {unknown} agents @returns {number} */
export function checkedAgents(agents) {
  if (agents === undefined) {
    throw new Refused("the number of agents is missing: give `agents` (--agents), or `setup` in the module");
  }
  if (isIntegerWithin(agents, 1, SCRIPT_LIMITS.agents)) return agents;
  throw new Refused(`the number of agents must be from 1 to ${SCRIPT_LIMITS.agents}`);
}

/** @param {unknown} buffers @returns {number[]} */
export function checkedBuffers(buffers) {
  if (buffers === undefined) {
    throw new Refused("the buffers' bytes are missing: give `buffers` (--buffers), or `setup` in the module");
  }
  const { blocks, bytes } = SCRIPT_LIMITS;
  if (!Array.isArray(buffers) || !isIntegerWithin(buffers.length, 1, blocks)) {
    throw new Refused(`there must be from 1 to ${blocks} buffers`);
  }
  const lengths = Array.from(buffers);
  if (lengths.every((length) => isIntegerWithin(length, 0, bytes))) return lengths;
  throw new Refused(`a buffer must have from 0 to ${bytes} bytes`);
}

/** @param {unknown} noBlock @returns {number[]} */
export function checkedNoBlock(noBlock) {
  const most = SCRIPT_LIMITS.agents - 1;
  if (!Array.isArray(noBlock) || !Array.from(noBlock).every((agent) => isIntegerWithin(agent, 0, most))) {
    throw new Refused(`\`noBlock\` must be an array of the numbers of agents, each from 0 to ${most}`);
  }
  return [...noBlock];
}

/**
 * @param {unknown} noBlock undefined: all can block
 * @param {number} agents
 * @returns {boolean[]} of each agent whether it can block
 */
function canBlockOf(noBlock, agents) {
  const given = noBlock === undefined ? [] : checkedNoBlock(noBlock);
  const other = given.find((agent) => agent >= agents);
  if (other !== undefined) {
    throw new Refused(`\`noBlock\` (--no-block) names agent ${other}: there is no such agent, only 0 to ${agents - 1}`);
  }
  return Array.from({ length: agents }, (_, agent) => !given.includes(agent));
}

/**
 * The plan of some options and a module's `setup`. If both the options and the setup give something, the options count.
 * @param {{ agents?: number, buffers?: number[], noBlock?: number[] }} options
 * @param {unknown} setup
 * @returns {Plan}
 */
export function planOf(options, setup) {
  const given = /** @type {Partial<Record<string, unknown>>} */ (setup ?? {});
  if (typeof given !== "object") throw new Refused("`setup` must be an object, as { agents: 2, buffers: [12] }");
  const other = Object.keys(given).find((name) => !SETUP.includes(name));
  if (other !== undefined) throw new Refused(`\`setup\` can't have a member ${other}: ${meant(other, SETUP)}`);
  const agents = checkedAgents(options.agents ?? given.agents);
  const buffers = checkedBuffers(options.buffers ?? given.buffers);
  const canBlock = canBlockOf(options.noBlock ?? given.noBlock, agents);
  return { agents, buffers, canBlock, names: checkedNames(given.names, buffers) };
}

/**
 * Refuses a module that exports something by a name that is nearly one of those that are looked for: it wouldn't be
 * found, and its runs would pass.
 * @param {string[]} names
 * @throws {Refused}
 */
export function needsRightNames(names) {
  for (const name of names) {
    const near = slipOf(name, EXPORTS.filter((each) => !names.includes(each)));
    if (near === undefined) continue;
    const others = `the recorder uses only the exports default, ${EXPORTS.join(", ")}`;
    throw new Refused(`the module exports \`${name}\`: is \`${near}\` meant? (${others}; give it another name if not)`);
  }
}
