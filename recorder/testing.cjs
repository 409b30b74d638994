// The form of `sabsim/test` for a `require` that can't load ES modules: jest's, and that of node before 20.19. It runs
// the recorder in a process of its own.
"use strict";

const { callerOf } = require("./lib/library/caller.cjs");
const { nodeTest } = require("./lib/suite/node-test.cjs");
const { triedApart } = require("./lib/suite/trial-apart.cjs");

/**
 * @param {string} name of the test
 * @param {object} options
 * @param {import("./lib/library/caller.cjs").Caller} caller whose code asks for the test
 * @returns {(context: import("node:test").TestContext) => Promise<void>} what a test of node:test does
 */
function bodyOf(name, options, caller) {
  return async (context) => context.diagnostic(await triedApart(options, { ...caller, name }));
}

/** @param {string} name @param {object} options @returns {Promise<void>} */
function testAgents(name, options) {
  return nodeTest("testAgents", "assertAgents")(name, {}, bodyOf(name, options, callerOf(testAgents)));
}

/** @param {object} options @returns {Promise<void>} */
async function assertAgents(options) {
  await triedApart(options, callerOf(assertAgents));
}

/** @param {string} name @param {object} options @returns {Promise<void>} */
function testObject(name, options) {
  return nodeTest("testObject", "assertObject")(name, {}, bodyOf(name, options, callerOf(testObject)));
}

/** @param {object} options @returns {Promise<void>} */
async function assertObject(options) {
  await triedApart(options, callerOf(assertObject));
}

/** @param {string} name @param {object} options @returns {Promise<void>} */
function testProgram(name, options) {
  return nodeTest("testProgram", "assertProgram")(name, {}, bodyOf(name, options, callerOf(testProgram)));
}

/** @param {object} options @returns {Promise<void>} */
async function assertProgram(options) {
  await triedApart(options, callerOf(assertProgram));
}

module.exports = { assertAgents, assertObject, assertProgram, testAgents, testObject, testProgram };
