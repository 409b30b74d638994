// What --replay does with a kept run of a program: its threads run once more, by the row of that run, in this process.

import { existsSync } from "node:fs";
import { shortPath } from "../keeping/about-run.mjs";
import { PROGRAM_ENDING } from "../keeping/run-store.mjs";
import { fileUrlOf, keptProgram } from "../keeping/kept-program.mjs";
import { Refused } from "../options/refused.mjs";
import { Windows } from "../run/windows/windows.mjs";
import { firstOtherMove } from "../run/same.mjs";
import { TIMES_TRIED } from "../run/words/summary-words.mjs";
import { firstOtherText, programDivergenceText, programEndText } from "../shorter/differing.mjs";
import { keptScript } from "../shorter/kept-script.mjs";
import { Replaying, keptRunText } from "./replaying.mjs";

/** @typedef {import("../seeds/job.mjs").CheckedOutcome} CheckedOutcome */

export class ProgramReplay extends Replaying {
  /**
   * @param {import("./options.mjs").CommandOptions} options those that are given count, and else those of the kept run
   * @param {NonNullable<import("./options.mjs").CommandOptions["replay"]>} wanted
   */
  constructor(options, { file, seed, given }) {
    const run = keptProgram(keptRunText(file), file);
    const args = options.args.length > 0 ? options.args : run.args;
    const main = options.module ?? run.program;
    super({ ...options, ...run.options, ...given, program: main, args }, file, fileUrlOf(main));
    this.main = main;
    if (!existsSync(main)) throw new Refused(`there is no file ${main}: --program says where the program is`);
    this.row = run.row;
    this.seed = seed ?? run.seed;
    const script = run.script;
    const isThere = script !== undefined && existsSync(script);
    this.script = isThere ? keptScript(keptRunText(script), script, [], run.windows) : undefined;
    this.keepsAs(new RegExp(`\\.${PROGRAM_ENDING.replace(".", "\\.")}$`));
  }

  /**
   * @returns {Promise<CheckedOutcome>} for a run that gets real answers, the first one that goes the same way, or the
   * last
   */
  async made() {
    const { module, row, seed, options: { fresh } } = this;
    const options = { module, fresh, wanted: { row, isExact: true, wantsRow: true, isShown: true } };
    let outcome = await this.one(seed, options);
    for (let time = 1; time < TIMES_TRIED && outcome.real && this.differenceOf(outcome); time += 1) {
      outcome = await this.one(seed, options);
    }
    return outcome;
  }

  /** @param {CheckedOutcome} outcome @returns {string | undefined} */
  differenceOf({ divergence, script, windows, ending, row }) {
    const now = script === undefined ? undefined : keptScript(script, "the run", [], windows && new Windows(windows));
    const other = this.script && now && firstOtherText(this.script, now);
    if (other !== undefined || divergence !== undefined) {
      return other ?? (divergence && programDivergenceText(divergence));
    }
    // At a limit the run is broken off.
    const isWhole = ending !== "limit" && row !== undefined;
    return isWhole ? programEndText(this.row, firstOtherMove(this.row, row)) : undefined;
  }

  titles() {
    return [`replayed ${this.file}: ${shortPath(this.main)}, with the clocks and random numbers of seed ${this.seed}`];
  }
}
