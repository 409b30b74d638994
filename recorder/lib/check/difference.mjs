// The error for a run that the simulator doesn't replay as the code has made it.

/** @typedef {import("../run/outcome.mjs").Outcome} Outcome */
/**
 * @typedef {Pick<Outcome, "seed" | "script" | "report" | "choices" | "trace">} Scripted what is kept of a run that
 * differs
 */

/** What the code saw isn't what the simulator reports, or the simulator has failed: a defect of one of them. */
export class Difference extends Error {
  /**
   * @param {string} message both sides
   * @param {Scripted} outcome with its script and report, and with its trace if the verdict on it differs
   * @param {string} replayed the report of the simulator
   * @param {string} [judged] its verdict, if that differs
   */
  constructor(message, outcome, replayed, judged) {
    super(message);
    this.outcome = outcome;
    this.replayed = replayed;
    this.judged = judged;
  }
}
