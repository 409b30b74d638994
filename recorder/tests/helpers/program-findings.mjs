// What the recorder finds in the runs of the table's programs: all in one process and in the same threads, one
// program after the other.

import assert from "node:assert/strict";
import { checkedBy } from "../../lib/check/check.mjs";
import { simulatorAt } from "../../lib/simulator/chosen.mjs";
import { placesOf, urlOf } from "../programs/table.mjs";
import { programGroup } from "./groups.mjs";
import { CHECKER } from "./needs.mjs";

/** @typedef {import("../programs/table.mjs").Program} Program */
/** @typedef {import("../programs/table.mjs").Finding} Finding */
/** @typedef {import("../../lib/run/outcome.mjs").Outcome} Outcome */
/** @typedef {import("../../lib/check/check.mjs").Check} Check */

/** So many seeds are tried at once, until a run has failed: most wrong programs fail in the first few. */
const FIRST_PART = 5;

export class TableRuns {
  /** @param {Parameters<typeof programGroup>[0]} [options] of the group @returns {Promise<TableRuns>} */
  static async open(options) {
    return new TableRuns(await programGroup(options));
  }

  /** @param {import("../../lib/program/program-group.mjs").ProgramGroup} group */
  constructor(group) {
    this.group = group;
    this.simulator = simulatorAt(CHECKER);
  }

  /** @returns {Promise<void>} */
  close() {
    return this.group.close();
  }

  /**
   * The runs of a program, of which the first and each that fails are checked by the simulator, or all.
   * @param {Program} program
   * @param {{ first?: number, last: number, areWhole?: boolean }} seeds
   * @returns {Promise<(Outcome & Check)[]>}
   */
  async runs(program, { first = 1, last, areWhole = false }) {
    this.group.enter(urlOf(program).href);
    const seeds = Array.from({ length: last - first + 1 }, (_, at) => first + at);
    const wanted = seeds.map((seed) => ({ seed, whole: areWhole || seed === 1, isSilent: true }));
    /** @type {(Outcome & Check)[]} */
    const outcomes = [];
    await this.group.run(wanted, (outcome, judgement, aside) => {
      outcomes.push(checkedBy(this.simulator, { outcome, judgement, aside }));
    });
    return outcomes;
  }

  /**
   * The runs up to one that fails.
   * @param {Program} program
   * @param {number} last seed
   * @returns {Promise<(Outcome & Check)[]>} those of a few more seeds, too
   */
  async untilFailing(program, last) {
    /** @type {(Outcome & Check)[]} */
    const all = [];
    while (all.length < last && !all.some(({ fails }) => fails)) {
      const first = all.length + 1;
      all.push(...await this.runs(program,
        { first, last: Math.min(last, all.length + Math.max(FIRST_PART, all.length)) }));
    }
    return all;
  }
}

/**
 * @param {string} text
 * @param {string} place as `worker.mjs:7`
 * @returns {boolean} whether it has a column of that line
 */
const hasPlace = (text, place) => new RegExp(`(?<![\\w.-])${place.replaceAll(".", "\\.")}:\\d+`).test(text);

/**
 * @param {string[]} lines of a race
 * @param {string[]} places
 * @returns {boolean} whether they are these, in any order
 */
const areAt = ([one, other], [first, second]) =>
  (hasPlace(one, first) && hasPlace(other, second)) || (hasPlace(one, second) && hasPlace(other, first));

/**
 * @param {Program} program
 * @param {Outcome} outcome of a run that failed
 * @returns {Finding | undefined} the one that it is: it has the ending and the words, and shows threads and lines
 */
export function findingOf(program, outcome) {
  const { ending, detail, races } = outcome;
  return program.findings.find((finding) => {
    if (finding.ending !== ending || !(finding.says ?? /agent \d/).test(detail) || !/\bagent \d/.test(detail)) {
      return false;
    }
    const places = placesOf(program, finding);
    if (ending === "race") return races.length > 0 && races.every(({ lines }) => areAt(lines, places));
    return places.every((place) => hasPlace(detail, place));
  });
}

/** @param {Program} program @param {Outcome[]} outcomes: each that fails is known */
export function demandKnown(program, outcomes) {
  const strange = outcomes.filter((outcome) => outcome.fails && findingOf(program, outcome) === undefined);
  assert.deepEqual(strange.map(({ seed, ending, detail }) => `seed ${seed}: ${ending}: ${detail}`), []);
}
