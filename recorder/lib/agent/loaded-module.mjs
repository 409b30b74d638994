// What the agents' module exports, as its worker and the group need it.

import { clientOf } from "../objects/object-client.mjs";
import { isObjectModule, useOf } from "../objects/object-module.mjs";
import { ownKeys } from "../primordials.mjs";

const { Error: EngineError, String: text, structuredClone: cloned } = globalThis;

const NO_AGENT = "it has no function as its default export, as `export default function agent({ buffers }) { .. }`";

/** So many agents use an object in each run if their number isn't given, and others may stay away. */
const STAYING = 2;

/**
 * @typedef {{ setup: unknown, names: string[], hasInit: boolean, hasCheck: boolean, isObject: boolean }} Has what a
 * module has
 */

/**
 * @typedef {object} LoadedModule
 * @property {Function} default the agents' function
 * @property {Function} [init]
 * @property {Function} [check]
 * @property {boolean} isObject whether the tool makes its agents, which use an object
 */

/**
 * Makes sure that a module's `setup` can be handed on.
 * @param {any} setup
 * @throws {Error} which says what of it is no plain data
 */
function needsPlain(setup) {
  const must = "`setup` must be plain data, as { agents: 2, buffers: [12] }";
  if (typeof setup === "function") throw new EngineError(`${must}, but it is a function`);
  if (typeof setup !== "object" || setup === null) return;
  const keys = ownKeys(setup);
  for (let at = 0; at < keys.length; at += 1) {
    const value = setup[keys[at]];
    try {
      cloned(value);
    } catch {
      const what = typeof value === "function" ? "is a function" : "has something else in it";
      throw new EngineError(`${must}, but its member ${text(keys[at])} ${what}`);
    }
  }
}

/**
 * The names under which a module exports something, and those of its agent's own properties.
 * @param {object} module
 * @param {Function} agent
 * @returns {string[]}
 */
function namesIn(module, agent) {
  /** @type {string[]} */
  const names = [];
  const owners = [module, agent];
  for (let owner = 0; owner < owners.length; owner += 1) {
    const keys = ownKeys(owners[owner]);
    for (let at = 0; at < keys.length; at += 1) {
      const key = keys[at];
      if (typeof key === "string") names[names.length] = key;
    }
  }
  return names;
}

/** @param {Record<string, unknown>} others `init` and `check` of a module */
function needsFunctions(others) {
  const names = ["init", "check"];
  for (let at = 0; at < names.length; at += 1) {
    const found = others[names[at]];
    if (found !== undefined && typeof found !== "function") {
      throw new EngineError(`its export ${names[at]} is no function`);
    }
  }
}

/**
 * @param {any} found what the import of a module has given
 * @param {{ count?: number, each: number }} use how many agents use an object, if that is given, and how many
 * operations each makes at most
 * @returns {{ module: LoadedModule, has: Has }} with what the group learns of it
 * @throws {Error} which says why it can't be used
 */
export function loadedModule(found, use) {
  // A compiled CommonJS module has its exports in its default export.
  const isCompiled = typeof found.default === "object" && typeof found.default?.default === "function";
  const exported = isCompiled ? found.default : found;
  const isObject = isObjectModule(exported);
  const agent = isObject ? agentOfObject(exported, use) : exported.default;
  if (typeof agent !== "function") throw new EngineError(NO_AGENT);
  // A CommonJS module that exports a function has the others as its properties.
  const { init = agent.init, check = agent.check, setup = agent.setup } = exported;
  needsFunctions({ init, check });
  needsPlain(setup);
  const there = { hasInit: init !== undefined, hasCheck: check !== undefined, isObject };
  const module = { default: agent, init, check, isObject };
  return { module, has: { setup, names: namesIn(exported, agent), ...there } };
}

/** @param {any} exported by a module of an object @param {{ count?: number, each: number }} use @returns {Function} */
function agentOfObject(exported, { count, each }) {
  const staying = count === undefined && exported.setup?.agents === undefined ? STAYING : 0;
  return clientOf(useOf(exported, { isAlone: false, each, staying }));
}
