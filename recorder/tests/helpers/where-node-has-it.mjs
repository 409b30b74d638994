// Tests of what only some versions of node have.

import { test } from "node:test";

/**
 * Makes a test of something that this node may not have. Where it hasn't, there is nothing to test, so nothing is left
 * out: tests/other-node runs all tests with another version.
 * @param {boolean} isHere whether this node has it
 * @returns {(name: string, run: (context: import("node:test").TestContext) => unknown) => unknown}
 */
export const whereNodeHasIt = (isHere) => (isHere ? test : () => {});
