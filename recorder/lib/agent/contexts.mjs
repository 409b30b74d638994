// Contexts of node:vm. Ordinary accesses aren't watched there. Nobody would see what the `Atomics` of a context does,
// or what is done with shared memory that a context makes. So each context gets those of the agents.

import vm from "node:vm";
import { apply, defineProperty, deleteProperty, getOwnPropertyDescriptor, uncurried } from "../primordials.mjs";
import { methodOf, replaceNeeded } from "./ordinary/patch.mjs";

const NAMES = /** @type {const} */ (["Atomics", "SharedArrayBuffer", "WebAssembly"]);

const { Script, createContext, isContext } = vm;
const runInContext = uncurried(Script.prototype.runInContext);
const DEFINING = new Script(
  "(name, value) => void Object.defineProperty(globalThis, name, { value, writable: true, configurable: true })");

/** @param {any} options of a run in a new context @returns {object} those of the context */
function optionsOf(options) {
  const { contextName, contextOrigin, contextCodeGeneration, microtaskMode } = options ?? {};
  return { name: contextName, origin: contextOrigin, codeGeneration: contextCodeGeneration, microtaskMode };
}

/**
 * Puts what agents have in the place of a new context's own.
 * @param {any} global the object that stands for the context's global one
 * @param {boolean} isGiven whether that is an object of the agents', which stays as it was
 * @param {Record<string, unknown>} theirs
 */
function installInContext(global, isGiven, theirs) {
  const define = runInContext(DEFINING, global);
  for (let at = 0; at < NAMES.length; at += 1) {
    const name = NAMES[at];
    const former = isGiven ? getOwnPropertyDescriptor(global, name) : undefined;
    // One that can't be changed hides the context's own for good.
    if (former?.configurable === false) continue;
    define(name, theirs[name]);
    if (!isGiven) continue;
    if (former === undefined) deleteProperty(global, name);
    else defineProperty(global, name, former);
  }
}

/**
 * Patches what makes contexts.
 * @param {Record<string, unknown>} theirs what agents have, by the names of globals
 */
export function shareWithContexts(theirs) {
  /** @param {unknown} given @param {unknown[]} others */
  const made = (given, others) => {
    if (typeof given === "object" && given !== null && isContext(given)) return given;
    const global = apply(createContext, vm, [given, ...others]);
    // A constant in place of an object means the context's own global object.
    installInContext(global, typeof given !== "symbol", theirs);
    return global;
  };
  replaceNeeded(vm, "createContext", (engine) => methodOf((_, [given, ...others]) => made(given, others), engine));
  replaceNeeded(vm, "runInNewContext", (engine) => methodOf((self, [code, given, options]) =>
    apply(engine, self, [code, made(given, [optionsOf(options)]), options]), engine));
  replaceNeeded(Script.prototype, "runInNewContext", (engine) => methodOf((self, [given, options]) =>
    apply(engine, self, [made(given, [optionsOf(options)]), options]), engine));
}
