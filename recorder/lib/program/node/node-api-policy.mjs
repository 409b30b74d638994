// What a program may use of node, by the table beside this file. What is refused is replaced: `typeof` and `instanceof`
// say the same about it, and it reports its name when it is called. Modules of node that took the original before keep
// it.

import Module from "node:module";
import { isCalledByAgents } from "../../agent/frames.mjs";
import { member, methodOf, replace, replaceNeeded } from "../../agent/ordinary/patch.mjs";
import { apply, construct, getOwnPropertyDescriptor, ownKeys, proxyOf } from "../../primordials.mjs";
import { GLOBALS, METHODS, MODULES, SCHEME_MODULES } from "./node-api-table.mjs";

/** @typedef {import("./node-api-table.mjs").ApiPolicy} ApiPolicy */
/** @typedef {import("./node-api-table.mjs").ModulePolicy} ModulePolicy */
/**
 * @typedef {object} ApiPolicyContext
 * @property {(name: string) => void} refuse gets names such as `net.Stream` and doesn't return
 * @property {(name: string) => void} [used] gets the name of what the machine answers, if the program calls it itself
 * @property {() => boolean} [isPlaying] until then nothing is refused
 */

const Modules = /** @type {any} */ (Module);
const required = Module.createRequire(import.meta.url);
const isBuiltin = Modules.isBuiltin;

/** What each function has, and each module that is one. */
const OF_FUNCTIONS = Object.freeze(["length", "name", "prototype", "arguments", "caller"]);

/** @param {string | undefined} names @returns {string[]} */
const words = (names = "") => names.split(/\s+/).filter((name) => name !== "");

/** @param {Partial<Record<ApiPolicy, string>>} row @param {string} name @returns {ApiPolicy | undefined} */
const kindIn = (row, name) =>
  /** @type {ApiPolicy[]} */ (["simulated", "harmless", "real", "refused"])
    .find((kind) => words(row[kind]).includes(name));

/** @param {string} id with or without `node:` @returns {ModulePolicy | undefined} */
const rowOf = (id) => SCHEME_MODULES[id] ?? MODULES[id.replace(/^node:/, "")];

/**
 * What becomes of an export of a module.
 * @param {string} id the module, with or without `node:`
 * @param {string} name
 * @returns {ApiPolicy | undefined} none for what the table doesn't know
 */
export function apiPolicyOf(id, name) {
  const row = rowOf(id);
  return row === undefined || typeof row === "string" ? row : kindIn(row, name);
}

/**
 * @param {string} name
 * @returns {ApiPolicy | undefined} what becomes of a global; none for what the table doesn't know
 */
export const globalPolicyOf = (name) => kindIn(GLOBALS, name);

/** @param {any} exports @returns {string[]} the names that a module exports */
const namesIn = (exports) => Object.getOwnPropertyNames(exports).filter((name) =>
  !(typeof exports === "function" && OF_FUNCTIONS.includes(name)));

/**
 * What this version of node has and the tables don't know. A number does nothing, so the numbers of zlib aren't in
 * them.
 * @returns {string[]} such as `fs.readFile` and `fetch`
 */
export function unknownNames() {
  const ids = [...Modules.builtinModules, ...Object.keys(SCHEME_MODULES).filter((id) => isBuiltin(id))];
  const publicIds = ids.filter((id) => !id.startsWith("internal/"));
  const exported = publicIds.flatMap((id) => {
    const row = rowOf(id);
    if (row === undefined) return [id];
    if (typeof row === "string") return [];
    const exports = required(id);
    const unknown = namesIn(exports).filter((name) => kindIn(row, name) === undefined);
    return unknown.filter((name) => typeof exports[name] !== "number").map((name) => `${id}.${name}`);
  });
  const globals = Object.getOwnPropertyNames(globalThis).filter((name) => globalPolicyOf(name) === undefined);
  // If `node --eval` runs the program, each module is a global.
  return [...exported, ...globals.filter((name) => rowOf(name) === undefined)];
}

/** @type {WeakMap<Function, Function>} what stands for a function, also if it is exported under several names */
const standIns = new WeakMap();
/** @type {WeakSet<Function>} */
const areStandIns = new WeakSet();

/** @type {(name: string, given: ApiPolicyContext) => () => void} is called before what is refused */
const refusing = (name, { refuse, isPlaying = () => true }) => () => {
  if (!isPlaying()) return;
  refuse(name);
  throw new Error(`${name} isn't simulated`);
};

/**
 * @type {(name: string, given: ApiPolicyContext) => () => void} is called before what the machine answers. Node may use
 * it itself
 */
const noting = (name, { used = () => {}, isPlaying = () => true }) => {
  const note = () => {
    if (isPlaying() && isCalledByAgents(note)) used(name);
  };
  return note;
};

/**
 * What stands for something that is refused, or that is noted.
 * @param {Function} real
 * @param {() => void} check is called before each use
 * @returns {Function}
 */
function standIn(real, check) {
  if (areStandIns.has(real)) return real;
  const stand = standIns.get(real) ?? proxyOf(real, {
    apply(target, receiver, all) {
      check();
      return apply(target, receiver, all);
    },
    construct(target, all, newTarget) {
      check();
      return construct(target, all, newTarget);
    },
  });
  standIns.set(real, stand);
  areStandIns.add(stand);
  return stand;
}

/**
 * @type {Readonly<Record<"refused" | "real", (name: string, given: ApiPolicyContext) => () => void>>} what is replaced,
 * and how
 */
const REPLACED = Object.freeze({ refused: refusing, real: noting });

/**
 * @param {string} name of a global. Some are read from a module when they are first asked for
 * @param {() => void} check
 */
function replaceGlobal(name, check) {
  if (name in globalThis) member(globalThis, name, standIn(/** @type {any} */ (globalThis)[name], check));
}

/**
 * Replaces a function, or the functions that an object has.
 * @param {any} owner
 * @param {string} name
 * @param {string} shown
 * @param {(name: string) => () => void} checkOf what is called before each use, by the name that is shown
 */
function replaceAll(owner, name, shown, checkOf) {
  const found = getOwnPropertyDescriptor(owner, name);
  if (found === undefined || !("value" in found) || !(found.writable || found.configurable)) return;
  const { value } = found;
  if (typeof value === "function") replace(owner, name, (engine) => standIn(engine, checkOf(shown)));
  else if (value !== null && typeof value === "object") {
    for (const each of ownKeys(value)) {
      const own = getOwnPropertyDescriptor(value, each)?.value;
      if (typeof each === "string" && typeof own === "function") replaceAll(value, each, `${shown}.${each}`, checkOf);
    }
  }
}

/** Calls that are refused with some arguments only: `process.umask(0)` fails in a thread, `process.umask()` doesn't. */
const WITH_ARGUMENTS = Object.freeze(["umask"]);

/** Modules that change the thread as soon as they are loaded, so loading them is refused. */
const AS_LOADED = Object.freeze(["domain"]);

/** Modules that are members of another one, which hands them out without loading them. */
const MEMBERS = Object.freeze(/** @type {Record<string, string>} */ ({ fs: "fs/promises", dns: "dns/promises" }));

/** @param {ApiPolicyContext} given */
function refuseOfProcess({ refuse, isPlaying = () => true }) {
  for (const name of WITH_ARGUMENTS) {
    replaceNeeded(process, name, (engine) => methodOf((self, given) => {
      if (isPlaying() && given.length > 0 && given[0] !== undefined) refuse(`process.${name}`);
      return apply(engine, self, given);
    }, engine));
  }
}

/** What isn't shown of the path of a method. */
const OF_PROTOTYPE = /(?:\.constructor)?\.prototype\./;

/** @param {string} path of what has methods @returns {any} undefined if this node doesn't have it */
const ownerOf = (path) => path.split(".").reduce((from, name) => from?.[name], /** @type {any} */ (globalThis));

/**
 * Replaces what the tables refuse, and what the machine answers: for globals and `process` now, and for each other
 * module as a program loads it. Some modules do something when they are loaded. Call it once in a thread. Ask for
 * `process.stdout` and so on before, if they aren't replaced: node makes them of sockets in a first thread.
 * @param {ApiPolicyContext} given
 */
export function refuseRest(given) {
  for (const kind of /** @type {("refused" | "real")[]} */ (["refused", "real"])) {
    for (const name of words(GLOBALS[kind])) replaceGlobal(name, REPLACED[kind](name, given));
  }
  for (const [path, names] of Object.entries(METHODS)) {
    const refused = (/** @type {string} */ shown) => refusing(shown, given);
    const owner = ownerOf(path);
    if (owner === undefined) continue;
    for (const name of words(names)) replaceAll(owner, name, `${path}.${name}`.replace(OF_PROTOTYPE, "."), refused);
  }
  refuseOfProcess(given);
  /** @type {Set<string>} */
  const done = new Set();
  const refuseOf = (/** @type {string} */ request) => {
    const id = SCHEME_MODULES[request] === undefined ? request.replace(/^node:/, "") : request;
    if (AS_LOADED.includes(id) && (given.isPlaying?.() ?? true)) given.refuse(id);
    if (done.has(id)) return;
    done.add(id);
    if (MEMBERS[id] !== undefined) refuseOf(MEMBERS[id]);
    const exports = engineLoad(request, undefined, false);
    // The program may have replaced the iterators of arrays.
    namesIn(exports).forEach((name) => {
      const checkOf = REPLACED[/** @type {"refused" | "real"} */ (apiPolicyOf(id, name))];
      if (checkOf === undefined) return;
      replaceAll(exports, name, `${id.replace("node:", "")}.${name}`, (shown) => checkOf(shown, given));
    });
  };
  const engineLoad = Modules._load;
  for (const [owner, name] of /** @type {[object, string][]} */ ([[Modules, "_load"], [process, "getBuiltinModule"]])) {
    replace(owner, name, (engine) => methodOf((self, asked) => {
      if (isBuiltin(asked[0])) refuseOf(asked[0]);
      return apply(engine, self, asked);
    }, engine));
  }
  refuseOf("process");
}
