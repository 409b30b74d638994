// All that is known of runs of the table's programs: the programs are run one after the other, in the same threads.

import { PROGRAMS, urlOf } from "../programs/table.mjs";
import { programGroup } from "./groups.mjs";

/** @typedef {{ seed: number, text: string }} Known all that is known of a run: its text, which is JSON */
/** @typedef {{ runs: Known[], problem?: string }} OfProgram with what was thrown */

/** @param {string} name of a program @returns {string} */
function moduleOf(name) {
  const program = PROGRAMS.find((each) => each.name === name);
  if (program === undefined) throw new Error(`there is no program ${name}`);
  return urlOf(program).href;
}

/**
 * @param {import("../../lib/program/program-group.mjs").ProgramGroup} group
 * @param {string} module
 * @param {{ seeds: number[], isFresh: boolean }} how as below
 * @returns {Promise<Known[]>}
 */
async function runsOf(group, module, { seeds, isFresh }) {
  /** @type {Known[]} */
  const runs = [];
  group.enter(module);
  const wanted = seeds.map((seed, at) =>
    ({ seed, whole: true, needsTrace: true, isSilent: true, isFresh: isFresh && at === 0 }));
  await group.run(wanted, ({ seed, ending, detail, moves, script, noScript, report, trace, noTrace }) => {
    if (trace === undefined || (script ?? noScript) === undefined) {
      throw new Error(`seed ${seed} lacks its script or trace: ${[ending, detail, noTrace].join("; ")}`);
    }
    runs.push({ seed, text: JSON.stringify({ ending, detail, moves, script, noScript, report, trace }) });
  });
  return runs;
}

/**
 * @param {string[]} names of the programs, in their order
 * @param {number[]} seeds in their order
 * @param {{ isFresh?: boolean }} how whether the first run of each program has fresh threads
 * @returns {Promise<Record<string, OfProgram>>} by their names
 */
export async function sameRuns(names, seeds, { isFresh = false } = {}) {
  const group = await programGroup();
  /** @type {Record<string, OfProgram>} */
  const all = {};
  for (const name of names) {
    try {
      all[name] = { runs: await runsOf(group, moduleOf(name), { seeds, isFresh }) };
    } catch (problem) {
      all[name] = { runs: [], problem: String(problem) };
    }
  }
  await group.close();
  return all;
}
