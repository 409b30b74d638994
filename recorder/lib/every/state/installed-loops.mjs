// Puts the functions of the prelude in the place of the engine's: they have the same names and lengths.

import { EventEmitter } from "node:events";
import { replace } from "../../agent/ordinary/patch.mjs";
import { TypedArray } from "../../primordials.mjs";
import { knownSteps, ownSteps, takeStep } from "./loop-steps.mjs";

/** The URLs of the modules that have these functions. */
export const PRELUDE = ["./prelude.mjs", "./prelude-makers.mjs"].map((name) => new URL(name, import.meta.url).href);

/** @typedef {Record<string, Function>} Stands by the names of what they stand for */

/** @type {[object, string, Function][]} the engine's functions that others stand for */
const engines = [];

/** @param {object} owner @param {Stands} stands */
function install(owner, stands) {
  for (const [name, stand] of Object.entries(stands)) {
    replace(owner, name, (engine) => {
      engines.push([owner, name, engine]);
      return stand;
    });
  }
}

/** Puts the engine's functions back: a prelude that is loaded next takes them. */
export function removeLoops() {
  for (const [owner, name, engine] of engines) replace(owner, name, () => engine);
  engines.length = 0;
}

/**
 * @typedef {"arrayLoops" | "typedLoops" | "mapLoops" | "setLoops" | "arrayMakers" | "functionCalls" | "reflectCalls"
 * | "jsonCalls" | "emitterCalls" | "stringCalls"} StandKind
 */

/** @typedef {(known: typeof knownSteps, own: typeof ownSteps) => void} StepsTaker */

/** What the prelude has for rewritten code, by the names by which that calls it. */
const CALLED = ["iterable", "elementsOf", "madePromise", "madeSet", "madeMap", "takenOf"];

/**
 * @param {any} prelude what it exports
 * @param {Record<string, any>} calls of the rewritten code, which get the prelude's own
 */
export function callPrelude(prelude, calls) {
  takeStep(prelude.othersSteps.next);
  /** @type {StepsTaker} */ (prelude.takeSteps)(knownSteps, ownSteps);
  for (const name of CALLED) calls[name] = prelude[name];
}

/** @param {Record<StandKind, Stands>} prelude */
export function installLoops(prelude) {
  const { arrayLoops, typedLoops, mapLoops, setLoops, arrayMakers, functionCalls, reflectCalls } = prelude;
  install(Array.prototype, arrayLoops);
  install(TypedArray.prototype, typedLoops);
  install(Map.prototype, mapLoops);
  install(Set.prototype, setLoops);
  install(Array, arrayMakers);
  install(Function.prototype, functionCalls);
  install(Reflect, reflectCalls);
  install(String.prototype, prelude.stringCalls);
  install(JSON, prelude.jsonCalls);
  install(EventEmitter.prototype, prelude.emitterCalls);
}
