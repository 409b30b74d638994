// A script whose schedule is being changed: each change is replayed at once, and can be taken back.

import { SCRIPT_LIMITS } from "../script/limits.mjs";
import { differencesOf } from "./differences.mjs";
import { isWholeSchedule, replayedAsWritten, replayedWhole } from "./fitting.mjs";
import { readReport } from "./report-entries.mjs";
import { textWith } from "./schedule-text.mjs";
import { turnsOf } from "./turns.mjs";

/** @typedef {import("./edits.mjs").Edit} Edit */
/** @typedef {import("./fitting.mjs").Replayed} Replayed */
/** @typedef {import("./report-entries.mjs").Report} Report */
/** @typedef {import("./turns.mjs").ScheduleMove} ScheduleMove */
/** @typedef {import("./turns.mjs").ScheduleTurn} ScheduleTurn */

/** @typedef {{ status: number, output: Uint8Array, complaint: Uint8Array }} Simulated */
/** @typedef {(words: string[], input: Uint8Array) => Simulated} Simulate what the program does with its words */

const REPLAY = ["replay", "--format", "json"];

/** A script isn't replayed. The message says why. */
export class NotReplayed extends Error {}

/**
 * What the simulator writes about a text.
 * @param {Simulate} simulate
 * @param {string[]} words
 * @param {string} text
 * @returns {string}
 * @throws {NotReplayed} if the simulator refuses the text
 */
export function outputOf(simulate, words, text) {
  const { status, output, complaint } = simulate(words, new TextEncoder().encode(text));
  if (status !== 0) throw new NotReplayed(new TextDecoder().decode(complaint).trim());
  return new TextDecoder().decode(output);
}

export class Editing {
  /**
   * @param {string} text of the script
   * @param {Simulate} simulate
   * @throws {NotReplayed}
   */
  constructor(text, simulate) {
    this.simulate = simulate;
    const report = readReport(outputOf(simulate, REPLAY, text));
    this.script = JSON.parse(text);
    this.textWith = textWith(text);
    this.recorded = replayedAsWritten(turnsOf(this.script, report.entries), () => report);
    /**
     * Whether each turn has all moves of its draw, and is made anew with all of them; if not, turns keep the moves that
     * they have.
     */
    this.isWhole = isWholeSchedule(this.script, this.recorded);
    this.now = this.recorded;
    /**
     * @type {{ turns: ScheduleTurn[], moves: ScheduleMove[], starts: number[], at: number }[]} before each change; `at`
     * was chosen
     */
    this.before = [];
  }

  /** @param {ScheduleMove[]} moves @returns {Report} @throws {NotReplayed} */
  #replay(moves) {
    const { moves: most, text: longest } = SCRIPT_LIMITS;
    const text = this.textWith(moves);
    if (moves.length > most) throw new NotReplayed(`a schedule has at most ${most} moves`);
    if (new TextEncoder().encode(text).length > longest) throw new NotReplayed(`a script has at most ${longest} bytes`);
    return readReport(outputOf(this.simulate, REPLAY, text));
  }

  /** @param {ScheduleTurn[]} turns @returns {Replayed} @throws {NotReplayed} */
  #replayed(turns) {
    /** @param {ScheduleMove[]} moves */
    const replay = (moves) => this.#replay(moves);
    if (!this.isWhole) return replayedAsWritten(turns, replay);
    return replayedWhole(this.script, turns, replay, this.now);
  }

  /** The text of the script with the schedule as it is now. */
  get text() {
    return this.textWith(this.now.moves);
  }

  /** Whether the schedule differs from the recorded one. */
  get isChanged() {
    return JSON.stringify(this.now.moves) !== JSON.stringify(this.recorded.moves);
  }

  /** What is different from the recorded run. */
  get differences() {
    return differencesOf(this.recorded.report, this.now.report);
  }

  /**
   * Changes the schedule, and replays it.
   * @param {Edit} edit
   * @param {number} at the position of a turn
   * @returns {{ at: number } | { why: string }} where that turn is now, or why nothing was changed
   */
  change(edit, at) {
    const edited = edit(this.now, at);
    if ("why" in edited) return edited;
    try {
      const replayed = this.#replayed(edited.turns);
      const { turns, moves, starts } = this.now;
      this.before.push({ turns, moves, starts, at });
      this.now = replayed;
      return { at: edited.at };
    } catch (problem) {
      if (problem instanceof NotReplayed) return { why: problem.message };
      throw problem;
    }
  }

  /**
   * Takes the last change back.
   * @returns {number | undefined} the turn that was chosen before it; undefined: there is no change
   */
  undo() {
    const last = this.before.at(-1);
    if (last === undefined) return undefined;
    const { turns, moves, starts, at } = last;
    this.now = { turns, moves, starts, report: this.#replay(moves) };
    this.before.pop();
    return at;
  }

  /** Takes all changes back. */
  reset() {
    this.now = this.recorded;
    this.before = [];
  }
}
