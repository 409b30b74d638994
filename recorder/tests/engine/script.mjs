// Reads a script (docs/FORMATS.md) into the parts that the engine needs. What is read is checked as far as the engine
// needs it: which fault a bad script has is for `sabsim replay` to say.

import { CALLS, KINDS } from "../../script/kinds.mjs";
import { SCRIPT_LIMITS } from "../../script/limits.mjs";
import { isWhole, isWithin128Bits } from "../../script/operands.mjs";

/** @typedef {number | bigint} Operand a whole number, which is a Number, or a BigInt */
/** @typedef {{ name: string, kind: number, block: number, offset: number, length: number | null }} View see `KINDS` */
/** @typedef {{ method: string, view: number, operands: Operand[] }} Call `operands`: its index and what comes after */
/** @typedef {{ canBlock: boolean, calls: Call[] }} Agent */
/** @typedef {{ agent: number, isTimeUp: boolean }} Move a step of an agent, or that its wait's time is up */
/** @typedef {{ blocks: number[], views: View[], agents: Agent[], schedule: Move[] }} Script */

/** A script that isn't one. Its message says what is wrong, and where. */
export class ScriptFault extends Error {}

/**
 * The script that a text in UTF-8 spells.
 * @param {Uint8Array} bytes
 * @returns {Script}
 * @throws {ScriptFault} where it spells none
 */
export function readScript(bytes) {
  const most = SCRIPT_LIMITS;
  demand(bytes.length <= most.text, `the script has more than ${most.text} bytes`);
  const tree = parse(bytes);
  const isOld = Object.hasOwn(Object(tree), "bytes");
  demandMembers(tree, [isOld ? "bytes" : "blocks", "views", "agents", "schedule"], "the script");
  /** @type {Tree[]} */
  const blocks = isOld ? [tree.bytes] : list(tree.blocks, most.blocks, "blocks");
  demand(blocks.length > 0, "blocks is empty");
  for (const [block, length] of blocks.entries()) demandBetween(length, 0, most.bytes, `the length of block ${block}`);
  const views = list(tree.views, most.views, "views").map((view, at) => readView(view, isOld, blocks.length, at));
  const positions = new Map(views.map((view, position) => [view.name, position]));
  demand(positions.size === views.length, "two views have one name");
  const agents = list(tree.agents, most.agents, "agents").map((agent, at) => readAgent(agent, positions, at));
  const moves = list(tree.schedule, most.moves, "schedule");
  return { blocks, views, agents, schedule: moves.map((move, at) => readMove(move, agents.length, at)) };
}

/** @typedef {any} Tree a part of the JSON text, of which nothing is known yet */

/** @param {Uint8Array} bytes @returns {Tree} */
function parse(bytes) {
  try {
    return JSON.parse(new TextDecoder("utf-8", { fatal: true, ignoreBOM: true }).decode(bytes));
  } catch (error) {
    throw new ScriptFault(`the script is no JSON text in UTF-8: ${/** @type {Error} */ (error).message}`);
  }
}

/**
 * @param {Tree} tree
 * @param {boolean} isOld whether the script has the older form
 * @param {number} blockCount
 * @param {number} at its position
 * @returns {View}
 */
function readView(tree, isOld, blockCount, at) {
  const where = `view ${at}`;
  demandMembers(tree, ["name", "kind", ...(isOld ? [] : ["block"]), "offset", "length"], where);
  const { name, kind, block = 0, offset, length } = tree;
  demand(typeof name === "string" && /^[A-Za-z0-9_]{1,32}$/.test(name), `${where} has no name of the right form`);
  demand(KINDS.includes(kind), `${where} is of a kind that isn't there`);
  demandBetween(block, 0, blockCount - 1, `the block of ${where}`);
  demandWhole(offset, `the offset of ${where}`);
  if (length !== null) demandWhole(length, `the length of ${where}`);
  return { name, kind: KINDS.indexOf(kind), block, offset, length };
}

/**
 * @param {Tree} tree
 * @param {Map<string, number>} positions of the views, by their names
 * @param {number} at its position
 * @returns {Agent}
 */
function readAgent(tree, positions, at) {
  demandMembers(tree, ["block", "calls"], `agent ${at}`);
  demand(typeof tree.block === "boolean", `agent ${at} doesn't say whether it can block`);
  const calls = list(tree.calls, SCRIPT_LIMITS.calls, `the calls of agent ${at}`);
  return { canBlock: tree.block, calls: calls.map((call, k) => readCall(call, positions, `call ${k} of agent ${at}`)) };
}

/**
 * @param {Tree} tree
 * @param {Map<string, number>} positions of the views, by their names
 * @param {string} where
 * @returns {Call}
 */
function readCall(tree, positions, where) {
  const [method, name, index, ...rest] = list(tree, 5, where);
  const taken = CALLS.find((call) => call.name === method);
  demand(taken !== undefined, `${where} has a name that no call has`);
  const view = positions.get(name);
  demand(view !== undefined, `${where} names a view that isn't there`);
  demandWhole(index, `the index of ${where}`);
  const most = taken.operands + (method === "wait" || method === "notify" ? 1 : 0);
  demand(rest.length >= taken.operands && rest.length <= most, `${where} has a wrong number of elements`);
  // A limit is a Number; every operand before it may be a BigInt too.
  /** @param {number} position */
  const isLimit = (position) => position >= taken.operands;
  const operands = rest.map((value, position) => readOperand(value, isLimit(position), `an operand of ${where}`));
  return { method, view, operands: [index, ...operands] };
}

/**
 * @param {Tree} value
 * @param {boolean} isLimit
 * @param {string} where
 * @returns {Operand}
 */
function readOperand(value, isLimit, where) {
  if (isLimit || typeof value !== "string") {
    demandWhole(value, where);
    return value;
  }
  const spelled = /^(0|-?[1-9][0-9]{0,38})$/.test(value) ? BigInt(value) : null;
  demand(spelled !== null && isWithin128Bits(spelled), `${where} is a string that is no BigInt here`);
  return spelled;
}

/**
 * @param {Tree} tree
 * @param {number} agentCount
 * @param {number} at its position
 * @returns {Move}
 */
function readMove(tree, agentCount, at) {
  const isTimeUp = typeof tree === "object";
  if (isTimeUp) demandMembers(tree, ["timeout"], `move ${at}`);
  const agent = isTimeUp ? tree.timeout : tree;
  demandBetween(agent, 0, agentCount - 1, `the agent of move ${at}`);
  return { agent, isTimeUp };
}

/**
 * @param {Tree} tree
 * @param {number} most
 * @param {string} where
 * @returns {Tree[]}
 */
function list(tree, most, where) {
  demand(Array.isArray(tree), `${where}: no array`);
  demand(tree.length <= most, `${where}: more than ${most} elements`);
  return tree;
}

/**
 * @param {Tree} tree
 * @param {string[]} names
 * @param {string} where
 */
function demandMembers(tree, names, where) {
  demand(typeof tree === "object" && tree !== null && !Array.isArray(tree), `${where} is no object`);
  const members = Object.keys(tree);
  const missing = names.find((name) => !members.includes(name));
  demand(missing === undefined, `${where} lacks ${missing}`);
  const further = members.find((name) => !names.includes(name));
  demand(further === undefined, `${where} has a further member, ${further}`);
}

/**
 * @param {Tree} value
 * @param {number} least
 * @param {number} most
 * @param {string} where
 */
function demandBetween(value, least, most, where) {
  demandWhole(value, where);
  demand(value >= least && value <= most, `${where} isn't among ${least} to ${most}`);
}

/** @param {Tree} value @param {string} where */
function demandWhole(value, where) {
  demand(isWhole(value) && !Object.is(value, -0), `${where} is no whole number within 2^53 - 1`);
}

/**
 * @param {unknown} holds
 * @param {string} message
 * @returns {asserts holds}
 */
function demand(holds, message) {
  if (!holds) throw new ScriptFault(message);
}
