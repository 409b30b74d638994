// Real runs that fail in a way that the search hasn't found. Some say that what was learned is wrong; the others are
// listed, as failing seeds are.

import { comesBefore } from "../run/order.mjs";
import { runText } from "./agreement.mjs";
import { NotAsLearned } from "./not-as-learned.mjs";
import { isShownBy, plain } from "./showing.mjs";

/** @typedef {import("./learning/findings.mjs").Finding} Finding */
/** @typedef {import("./agreement.mjs").RealOutcome} RealOutcome */

/**
 * @typedef {object} OnlyRun
 * @property {"race" | "limit" | "failed"} kind
 * @property {string} text which lines race, or else the first line of the run's detail
 * @property {number} runs how many end so
 * @property {RealOutcome} outcome of the first one
 */

/** The endings of runs that show a finding. */
const ENDINGS = Object.freeze({
  deadlock: "deadlock", threw: "failed", check: "check", race: "race", "no way out": "limit",
  "not linearizable": "not linearizable", "lost wake-up": "lost wake-up",
});

/** What a search that is closed finds of each run, by its ending, in words. */
const FINDS = Object.freeze({
  deadlock: "is a deadlock", failed: "throws", check: "fails check", race: "has a data race",
  "not linearizable": "isn't linearizable", "lost wake-up": "loses a wake-up",
});

const OTHER_CHECK = "`check` may go by something else than the bytes, or keep something from call to call";

export class OnlyRuns {
  /**
   * @param {Finding[]} findings of a search that is closed
   * @param {import("../simulator/chosen.mjs").ChosenSimulator} simulator that judges
   */
  constructor(findings, simulator) {
    this.findings = findings;
    this.simulator = simulator;
    /** @type {Map<string, OnlyRun>} */
    this.found = new Map();
  }

  /**
   * @param {RealOutcome} outcome of a real run
   * @param {boolean} isWay whether it is a way through the automata
   * @throws {NotAsLearned} if the search should have found how it ends
   */
  take(outcome, isWay) {
    if (!outcome.fails || this.findings.some((finding) => isOf(finding, outcome))) return;
    if (isWay) this.#needPossible(outcome);
    const { ending } = outcome;
    const kind = ending === "race" || ending === "limit" ? ending : "failed";
    const text = textOf(outcome, isWay);
    const key = `${kind} ${kind === "race" ? text : plain(text)}`;
    const known = this.found.get(key) ?? { kind, text, runs: 0, outcome };
    const first = comesBefore(outcome, known.outcome) ? { text, outcome } : known;
    this.found.set(key, { ...known, ...first, runs: known.runs + 1 });
  }

  /**
   * @param {RealOutcome} outcome of a way through the automata that the search hasn't found
   * @throws {NotAsLearned}
   */
  #needPossible(outcome) {
    const { detail, ending, trace = "" } = outcome;
    const [first] = detail.split("\n");
    const isOther = ending === "failed" && !/^agent \d+ threw /.test(first);
    if (!(ending in FINDS) || isOther || (ending === "race" && this.#dataRaces(trace) === 0)) return;
    const what = FINDS[/** @type {keyof typeof FINDS} */ (ending)];
    const why = ending === "check" ? `. ${OTHER_CHECK}` : "";
    const run = runText(outcome);
    throw new NotAsLearned(`${run} ${what}, and the search has found none that does: ${first}${why}`);
  }

  /** @param {string} trace @returns {number} how many data races the judge finds in it */
  #dataRaces(trace) {
    const { output } = this.simulator.run({ job: "judge-trace", format: "json" }, trace);
    return JSON.parse(output.trimEnd().split("\n").at(-1) ?? "").data_races;
  }
}

/** @param {RealOutcome} outcome @param {boolean} isWay if it is a race, none of its accesses are a data race then */
function textOf({ detail, ending, races: [race] }, isWay) {
  if (ending !== "race" || race === undefined) return detail.split("\n")[0];
  return `${race.lines.join(" and ")}${isWay ? ", unordered but no data race" : ""}`;
}

/** @param {Finding} finding @param {RealOutcome} outcome @returns {boolean} whether the run ends in that way */
const isOf = (finding, outcome) => ENDINGS[finding.kind] === outcome.ending && isShownBy(finding, outcome);
