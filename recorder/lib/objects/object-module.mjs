// A module of an object, by what it exports: whether it is one, and what its agents use.

import { callsOf } from "./object-calls.mjs";

const { Error: EngineError } = globalThis;

const NO_OBJECT = "it has no function `object`, as `export const object = ({ buffers }) => new Queue(buffers[0])`";

/**
 * @param {any} exported what a module exports
 * @returns {boolean} whether it is a module of an object: the tool makes its agents
 */
export const isObjectModule = ({ default: agent, operations }) => agent === undefined && operations !== undefined;

/**
 * @param {any} exported by a module of an object
 * @param {{ isAlone: boolean, each: number, staying: number }} how as `ObjectUse` has it; one agent alone uses the
 * class `Model`, if there is one
 * @returns {import("./object-client.mjs").ObjectUse}
 * @throws {Error} which says what is wrong with the module
 */
export function useOf({ Model, object, operations }, { isAlone, each, staying }) {
  if (typeof object !== "function") {
    throw new EngineError(NO_OBJECT);
  }
  if (Model !== undefined && typeof Model !== "function") throw new EngineError("its export `Model` is no class");
  const isModel = isAlone && Model !== undefined;
  return { make: isModel ? Model : object, isModel, calls: callsOf(operations), each, isAlone, staying };
}
