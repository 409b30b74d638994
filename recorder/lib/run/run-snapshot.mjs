// A copy of what was written down about a run that passes. From it another thread makes the run's script and report,
// while the agents make the next run.

import { CopiedRuns } from "../memory/copied-runs.mjs";
import { Log } from "../memory/log.mjs";
import { CopiedStores } from "../memory/stores.mjs";
import { Names } from "../options/names.mjs";
import { scriptWithinLimits } from "./script/script-within-limits.mjs";
import { KnownCalls } from "./script/known-calls.mjs";
import { answersOf, textsOf } from "./script-texts.mjs";

/** @typedef {import("./outcome.mjs").OutcomeScript} OutcomeScript */

/**
 * @typedef {object} RunSnapshot
 * @property {import("../memory/copied-runs.mjs").Copy} copy
 * @property {string[]} bytes of each block at the end, in hexadecimal digits
 * @property {boolean} isOrdinary whether ordinary accesses were made, or may have been made unseen
 */

export class TextMaker {
  /**
   * @param {import("../options/plan.mjs").Plan} plan
   * @param {SharedArrayBuffer} memory of the copies
   * @param {boolean} isBrief whether outcomes have no answers
   */
  constructor({ buffers, canBlock, names }, memory, isBrief) {
    this.fixed = { lengths: buffers, canBlock, names: new Names(names), known: new KnownCalls() };
    this.copies = new CopiedRuns(memory);
    this.isBrief = isBrief;
  }

  /**
   * What is made from a copy for its outcome: the script and its report, or why there is none, and the answers.
   * @param {RunSnapshot} taken
   * @returns {{ script: OutcomeScript, events: Int32Array }} with the events of the run; they hold until the copy is
   * freed
   */
  made({ copy, bytes, isOrdinary }) {
    const { fixed, isBrief } = this;
    const { events, records, stores } = this.copies.parts(copy);
    const run = { ...fixed, log: Log.from(events), records, isOrdinary };
    const found = scriptWithinLimits(run, new CopiedStores(stores), [], bytes);
    const answers = isBrief ? {} : answersOf(found, bytes, run.canBlock.length);
    return { script: { ...answers, ...textsOf(found) }, events };
  }

  /** @param {RunSnapshot} taken whose copy nobody reads any more */
  free({ copy }) {
    this.copies.free(copy);
  }
}
