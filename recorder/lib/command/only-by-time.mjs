// Lost wake-ups that a time hides: waits that ended only because their time was up, of all runs that finished. If
// nobody else notifies or writes the place in any run, the wait is a sleep, and isn't reported.

import { durationText, waitPlaceKey } from "../run/ending/timed-ends.mjs";
import { countText, digits } from "../run/words/summary-words.mjs";
import { Tally } from "./tally.mjs";

/** @typedef {import("../run/ending/timed-ends.mjs").OnlyByTime} OnlyByTime */
/** @typedef {import("../run/ending/timed-ends.mjs").WaitPlace} WaitPlace */

/**
 * @typedef {object} OnlyByTimeData as JSON
 * @property {(OnlyByTime & { runs: number, first: number })[]} listed waits that ended only because their time was up,
 * sleeps among them
 * @property {number} others how many runs are counted under what isn't listed
 * @property {WaitPlace[]} served the places at which agents wait, and that others notify or write in some run
 */

/** @param {OnlyByTime} wait */
const keyOf = ({ agent, line, milliseconds, block, byte }) => JSON.stringify([agent, line, milliseconds, block, byte]);

export class OnlyByTimeWaits {
  constructor() {
    /** @type {Tally<OnlyByTime>} */
    this.waits = new Tally();
    /** @type {Map<string, WaitPlace>} */
    this.served = new Map();
  }

  /** @param {import("../run/outcome.mjs").Outcome} outcome of a run */
  add({ seed, onlyByTime = [], served = [] }) {
    for (const wait of onlyByTime) this.waits.add(keyOf(wait), seed, wait);
    for (const place of served) this.served.set(waitPlaceKey(place), place);
  }

  /** @param {OnlyByTimeData} about other runs */
  join({ listed, others, served }) {
    this.waits.join(listed.map(({ runs, first, ...about }) => ({ key: keyOf(about), runs, first, about })), others);
    for (const place of served) this.served.set(waitPlaceKey(place), place);
  }

  /** @returns {OnlyByTimeData} */
  data() {
    const listed = this.waits.sorted().map(({ about, runs, first }) => ({ ...about, runs, first }));
    const served = [...this.served.values()].sort((one, other) => one.block - other.block || one.byte - other.byte);
    return { listed, others: this.waits.others, served };
  }
}

/**
 * The waits that are no sleeps.
 * @param {OnlyByTimeData} data
 * @returns {OnlyByTimeData["listed"]} those of most runs first
 */
export function hiddenWaits({ listed, served }) {
  const places = new Set(served.map(waitPlaceKey));
  return listed.filter((wait) => places.has(waitPlaceKey(wait)));
}

/**
 * @param {OnlyByTimeData} data
 * @param {number} runs how many there are
 * @returns {string[]} a line for each wait that is no sleep
 */
export function onlyByTimeLines(data, runs) {
  return hiddenWaits(data).map((wait) => {
    const { agent, line, milliseconds, block, byte } = wait;
    const where = line ?? `byte ${byte} of block ${block}`;
    const since = `only because its ${durationText(milliseconds)} ${milliseconds === 1 ? "was" : "were"} over`;
    return `agent ${agent} went on at ${where} ${since}, in ${digits(wait.runs)} of ${countText(runs, "run")}`;
  });
}
