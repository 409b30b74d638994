// node's own test runner. It is loaded only when a test of it is asked for: other runners may not know it. This is a
// CommonJS module, since only `require` loads at once.
"use strict";

/**
 * @param {string} asking the name of the function that makes a test of it
 * @param {string} instead the one that other runners can call
 * @returns {typeof import("node:test").test}
 */
function nodeTest(asking, instead) {
  try {
    return require("node:test").test;
  } catch {
    throw new Error(`${asking} makes a test of node:test, which this test runner can't load: `
      + `call ${instead} in a test`);
  }
}

module.exports = { nodeTest };
