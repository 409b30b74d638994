// Groups of workers in this process.

import assert from "node:assert/strict";
import { moduleUrl } from "../../lib/library/module-url.mjs";
import { ProgramGroup } from "../../lib/program/program-group.mjs";
import { Group } from "../../lib/run/group.mjs";

/** @typedef {import("../../lib/run/group.mjs").GroupOptions} GroupOptions */

const FIXED = Object.freeze({ args: [], maxMoves: 100_000, seconds: 5, fresh: false });

/**
 * A group that ends with the test, or with all tests of the file.
 * @param {{ after: (act: () => Promise<void>) => void }} context
 * @param {string | URL} module of agents
 * @param {Partial<GroupOptions>} [options]
 */
export async function groupOf(context, module, options = {}) {
  const group = await Group.open({ ...FIXED, ...options, module: moduleUrl(module) });
  context.after(() => group.close());
  return group;
}

/** No file: places in the code of the table's programs are named from its folder, whichever comes first. */
const IN_TABLE = new URL("../programs/main.mjs", import.meta.url).href;

/**
 * A group that runs whole programs one after the other, in the same threads. Its caller has to close it.
 * @param {Partial<GroupOptions>} [options] without a module its programs are those of the table
 * @returns {Promise<ProgramGroup>}
 */
export async function programGroup(options = {}) {
  const group = await ProgramGroup.open({ ...FIXED, seconds: 20, program: true, module: IN_TABLE, ...options });
  return /** @type {ProgramGroup} */ (group);
}

/** So many seeds are tried at a time: at first one, since in some groups each run that fails costs workers. */
const MOST_AT_ONCE = 10;

/**
 * The first failing run of a group's agents that meets no limit, by its seed.
 * @param {Group} group
 * @param {number} [most] how many seeds are tried
 * @returns {Promise<import("../../lib/run/outcome.mjs").Outcome>}
 */
export async function firstFailing(group, most = 500) {
  for (let first = 1, count = 1; first <= most; first += count, count = Math.min(2 * count, MOST_AT_ONCE)) {
    /** @type {number[]} */
    const failing = [];
    const seeds = Array.from({ length: count }, (_, at) => ({ seed: first + at, whole: false, isTrial: true }));
    await group.run(seeds, (outcome) => outcome.fails && outcome.ending !== "limit" && failing.push(outcome.seed));
    if (failing.length > 0) return (await group.one({ seed: failing[0], whole: true })).outcome;
  }
  return assert.fail(`none of ${most} runs failed`);
}
