// Tests of modules of agents and of objects, and of whole programs, for node's own test runner and for others.

import { callerOf } from "../library/caller.cjs";
import { nodeTest } from "./node-test.cjs";
import { tried } from "./trial.mjs";

/** @typedef {import("../library/library-options.mjs").TrialOptions} TrialOptions */
/** @typedef {import("../library/library-options.mjs").ProgramTrialOptions} ProgramTrialOptions */

/**
 * A test of node:test that runs agents under the schedules of many seeds, up to the first run that fails.
 * @param {string} name
 * @param {TrialOptions} options
 * @returns {Promise<void>} as `test` of node:test returns it
 */
export function testAgents(name, options) {
  return nodeTest("testAgents", "assertAgents")(name, {}, bodyOf(name, options, callerOf(testAgents)));
}

/**
 * Runs agents under the schedules of many seeds, up to the first run that fails, as a part of any test.
 * @param {TrialOptions} options
 * @returns {Promise<void>} fails with RunFailed if a run fails
 */
export async function assertAgents(options) {
  await tried(options, callerOf(assertAgents));
}

/**
 * A test of node:test that has agents try the operations of an object, under the schedules of many seeds, up to the
 * first run that fails.
 * @param {string} name
 * @param {TrialOptions} options
 * @returns {Promise<void>} as `test` of node:test returns it
 */
export function testObject(name, options) {
  return nodeTest("testObject", "assertObject")(name, {}, bodyOf(name, options, callerOf(testObject)));
}

/**
 * Has agents try the operations of an object in the same way, as a part of any test.
 * @param {TrialOptions} options
 * @returns {Promise<void>} fails with RunFailed if a run fails
 */
export async function assertObject(options) {
  await tried(options, callerOf(assertObject));
}

/**
 * A test of node:test that runs a whole program under the schedules of many seeds, up to the first run that fails.
 * @param {string} name
 * @param {ProgramTrialOptions} options
 * @returns {Promise<void>} as `test` of node:test returns it
 */
export function testProgram(name, options) {
  return nodeTest("testProgram", "assertProgram")(name, {}, bodyOf(name, options, callerOf(testProgram)));
}

/**
 * Runs a whole program under the schedules of many seeds, up to the first run that fails, as a part of any test.
 * @param {ProgramTrialOptions} options
 * @returns {Promise<void>} fails with RunFailed if a run fails
 */
export async function assertProgram(options) {
  await tried(options, callerOf(assertProgram));
}

/**
 * What a test of node:test does.
 * @param {string} name of the test
 * @param {TrialOptions | ProgramTrialOptions} options
 * @param {import("../library/caller.cjs").Caller} caller whose code asks for the test
 * @returns {(context: import("node:test").TestContext) => Promise<void>}
 */
function bodyOf(name, options, caller) {
  return async (context) => {
    context.diagnostic(await tried({ signal: context.signal, ...options }, { ...caller, name }));
  };
}
