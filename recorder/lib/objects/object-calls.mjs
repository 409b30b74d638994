// The calls that a module of an object lets its agents try: its export `operations`, read and checked.

import { isArray, ownKeys } from "../primordials.mjs";
import { outcomeText, spelled } from "./outcome-text.mjs";

/**
 * @typedef {object} ObjectCall one call to try
 * @property {string} name of the operation
 * @property {number} operation its position among the names
 * @property {unknown[]} args
 * @property {Function | undefined} run what is called in place of the method
 * @property {boolean} isBound whether an agent may begin it only as often as it has ended others before
 * @property {number[]} frees the operations that an agent may begin once more when it has ended this one
 * @property {number[] | undefined} agents that may make it; undefined: all
 * @property {string | undefined} mayFail an outcome that is always right, without any effect
 * @property {string} text the call, as it is shown
 */

/**
 * @typedef {object} OperationEntry an operation, as `operations` has it
 * @property {string} name
 * @property {unknown[][]} args of each of its calls
 * @property {Function} [run]
 * @property {string[]} after
 * @property {number[]} [agents]
 * @property {string} [mayFail]
 */

const { Error: EngineError } = globalThis;

/** From so many calls an agent can choose. */
const MOST_CALLS = 1_000;

const MEMBERS = ["args", "run", "after", "agents", "mayFail"];

const EXAMPLE = "as { push: [1, 2], pop: [] }";

/**
 * `includes` of arrays may be another one here.
 * @param {unknown[]} list
 * @param {unknown} item
 * @returns {number} its position, or -1
 */
function positionIn(list, item) {
  for (let at = 0; at < list.length; at += 1) if (list[at] === item) return at;
  return -1;
}

/** @param {string} name @param {string} why @returns {never} */
function refuse(name, why) {
  throw new EngineError(`the operation \`${name}\` ${why}`);
}

/**
 * @param {string} name
 * @param {unknown} list of an operation
 * @returns {unknown[][]} the arguments of each of its calls
 */
function argumentsIn(name, list) {
  if (!isArray(list)) return refuse(name, "must have a list of calls, as [1, 2]");
  if (list.length === 0) return [[]];
  /** @type {unknown[][]} */
  const all = [];
  for (let at = 0; at < list.length; at += 1) all[at] = isArray(list[at]) ? list[at] : [list[at]];
  return all;
}

/** @param {string} name @param {unknown} after @returns {string[]} */
function namesIn(name, after) {
  const list = typeof after === "string" ? [after] : after;
  if (!isArray(list)) return refuse(name, "must have the name of another operation as `after`, or a list of names");
  for (let at = 0; at < list.length; at += 1) {
    if (typeof list[at] !== "string") refuse(name, "has something in `after` that is no name");
  }
  return list;
}

/** @param {string} name @param {unknown} agents @returns {number[]} */
function agentsIn(name, agents) {
  if (!isArray(agents)) return refuse(name, "must have a list of agents' numbers as `agents`, as [0]");
  for (let at = 0; at < agents.length; at += 1) {
    if (!Number.isInteger(agents[at]) || agents[at] < 0) refuse(name, "has something in `agents` that is no number");
  }
  return agents;
}

/** @param {string} name @param {any} given what `operations` has for the name @returns {OperationEntry} */
function entryOf(name, given) {
  if (isArray(given)) return { name, args: argumentsIn(name, given), after: [] };
  if (typeof given !== "object" || given === null) return refuse(name, "must have a list of calls, as [1, 2]");
  const keys = ownKeys(given);
  for (let at = 0; at < keys.length; at += 1) {
    if (positionIn(MEMBERS, keys[at]) < 0) {
      refuse(name, `has a member ${String(keys[at])}: only args, run, after, agents and mayFail are used`);
    }
  }
  const { args = [], run, after, agents } = given;
  if (run !== undefined && typeof run !== "function") return refuse(name, "has a `run` that is no function");
  return {
    name, run, args: argumentsIn(name, args), after: after === undefined ? [] : namesIn(name, after),
    agents: agents === undefined ? undefined : agentsIn(name, agents),
    mayFail: positionIn(keys, "mayFail") < 0 ? undefined : outcomeText(given.mayFail, false),
  };
}

/**
 * @param {OperationEntry[]} entries
 * @param {OperationEntry} entry
 * @returns {number[]} the positions of those that come after it
 */
function freedBy(entries, { name }) {
  /** @type {number[]} */
  const freed = [];
  for (let at = 0; at < entries.length; at += 1) {
    if (positionIn(entries[at].after, name) >= 0) freed[freed.length] = at;
  }
  return freed;
}

/** @param {string} name @param {unknown[]} args @returns {string} */
function callText(name, args) {
  let text = "";
  for (let at = 0; at < args.length; at += 1) text += `${at === 0 ? "" : ", "}${argumentText(args[at])}`;
  return `${name}(${text})`;
}

/** @param {unknown} value @returns {string} an argument, which may be anything */
function argumentText(value) {
  try {
    return spelled(value);
  } catch {
    return typeof value === "function" ? "a function" : "..";
  }
}

/** @param {OperationEntry[]} entries each operation needs those that come before it */
function needNames(entries) {
  /** @type {string[]} */
  const names = [];
  for (let at = 0; at < entries.length; at += 1) names[at] = entries[at].name;
  for (let at = 0; at < entries.length; at += 1) {
    const { after, name } = entries[at];
    for (let other = 0; other < after.length; other += 1) {
      if (positionIn(names, after[other]) < 0) refuse(name, `comes after \`${after[other]}\`, which is no operation`);
    }
  }
}

/**
 * @param {any} operations what a module exports by this name
 * @returns {ObjectCall[]} each call that an agent may make
 * @throws {Error} which says what is wrong with it
 */
export function callsOf(operations) {
  if (typeof operations !== "object" || operations === null || isArray(operations)) {
    throw new EngineError(`\`operations\` must be an object with the names of methods, ${EXAMPLE}`);
  }
  const names = ownKeys(operations);
  if (names.length === 0) throw new EngineError(`\`operations\` names no method: give some, ${EXAMPLE}`);
  /** @type {OperationEntry[]} */
  const entries = [];
  for (let at = 0; at < names.length; at += 1) {
    const name = names[at];
    if (typeof name !== "string") throw new EngineError("`operations` must have names of methods, and no symbol");
    entries[at] = entryOf(name, operations[name]);
  }
  needNames(entries);
  return callsIn(entries);
}

/** @param {OperationEntry[]} entries @returns {ObjectCall[]} */
function callsIn(entries) {
  /** @type {ObjectCall[]} */
  const calls = [];
  for (let at = 0; at < entries.length; at += 1) {
    const { after, agents, args, mayFail, name, run } = entries[at];
    const same = { name, operation: at, run, agents, mayFail, isBound: after.length > 0 };
    for (let each = 0; each < args.length; each += 1) {
      const text = callText(name, args[each]);
      calls[calls.length] = { ...same, args: args[each], frees: freedBy(entries, entries[at]), text };
    }
  }
  if (calls.length <= MOST_CALLS) return calls;
  throw new EngineError(`\`operations\` has ${calls.length} calls, and ${MOST_CALLS} are the most`);
}
