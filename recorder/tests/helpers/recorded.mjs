// Runs of one module of agents under several seeds, by one group of workers, each whole and checked by the simulator.

import { readFileSync } from "node:fs";
import { checkedBy } from "../../lib/check/check.mjs";
import { Summary } from "../../lib/command/summary.mjs";
import { checkedOptions } from "../../lib/library/library-options.mjs";
import { Group } from "../../lib/run/group.mjs";
import { simulatorAt } from "../../lib/simulator/chosen.mjs";
import { agentsPath } from "./common.mjs";
import { CHECKER } from "./needs.mjs";

/** @typedef {import("../../lib/run/outcome.mjs").Judgement} Judgement */
/** @typedef {import("../../lib/run/outcome.mjs").Outcome} Outcome */

const simulator = simulatorAt(CHECKER);

/**
 * @param {import("../../lib/library/library-options.mjs").RecordOptions} options
 * @param {number[]} [seeds]
 * @returns {Promise<Outcome[]>} in the order of the seeds; fails with a Difference where sabsim says something else
 */
export async function recorded(options, seeds = [1]) {
  const group = await Group.open({ ...checkedOptions({ seconds: 5, ...options }, () => undefined), fresh: false });
  /** @type {import("../../lib/run/outcome.mjs").One[]} */
  const runs = [];
  try {
    const wanted = seeds.map((seed) => ({ seed, whole: true }));
    await group.run(wanted, (outcome, judgement, aside) => {
      runs.push({ outcome, judgement: lasting(judgement), aside });
    });
  } finally {
    await group.close();
  }
  for (const run of runs) checkedBy(simulator, run);
  return runs.map(({ outcome }) => outcome);
}

/**
 * What a group hands on with an outcome holds until its next run.
 * @param {Judgement | undefined} judgement
 * @returns {Judgement | undefined} one that lasts
 */
export const lasting = (judgement) => judgement && { ...judgement, events: judgement.events.slice() };

/**
 * The seeds from 1 to a last one.
 * @param {number} last
 */
export const seedsTo = (last) => Array.from({ length: last }, (_, at) => at + 1);

/**
 * The values of a part of outcomes that occur, in the order of their spelling.
 * @param {Outcome[]} outcomes
 * @param {keyof Outcome} part
 */
export const different = (outcomes, part) => [...new Set(outcomes.map((outcome) => outcome[part]))].sort();

/**
 * The bytes of a typed array, as an outcome shows them.
 * @param {ArrayBufferView} array
 */
export const hexOf = (array) => Buffer.from(array.buffer, array.byteOffset, array.byteLength).toString("hex");

/**
 * Where a text stands in a module of agents.
 * @param {string} name of the module
 * @param {string} text
 * @returns {{ line: number, column: number }[]} both from 1
 */
export function placesOfText(name, text) {
  const code = readFileSync(agentsPath(name), "utf8");
  return code.split(text).slice(0, -1).map((_, at, parts) => {
    const before = parts.slice(0, at + 1).join(text).split("\n");
    return { line: before.length, column: before[before.length - 1].length + 1 };
  });
}

/**
 * The first of these places, as the recorder reports it.
 * @param {string} name of the module
 * @param {string} text
 */
export function placeIn(name, text) {
  const [{ line, column }] = placesOfText(name, text);
  return `${name}.mjs:${line}:${column}`;
}

/**
 * The lines of the summary of some outcomes.
 * @param {Outcome[]} outcomes
 * @param {Partial<import("../../lib/command/summary.mjs").SummaryOptions>} [rules] as the command line gives them
 */
export function summaryLines(outcomes, rules = {}) {
  const summary = new Summary({ ordinary: "watch", races: "fail", ...rules });
  for (const outcome of outcomes) summary.add(outcome);
  return summary.text().trimEnd().split("\n");
}
