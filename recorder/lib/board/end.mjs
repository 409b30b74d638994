// How a run ends, and that it has ended.

import { NOBODY, WORD } from "../memory/layout.mjs";
import { positionIn, uncurried } from "../primordials.mjs";

// Agents get another Atomics, and may change what they find: the engine's own functions are kept here, before.
const { load, store, compareExchange, wait, notify } = Atomics;
const encode = uncurried(TextEncoder.prototype.encodeInto);
const encoder = new TextEncoder();

/** @typedef {"finished" | "deadlock" | "failed" | "limit" | "stuck" | "cut"} BoardEnding how a run ends by itself */

/**
 * @typedef {object} Met who has met a limit
 * @property {number} agent
 * @property {boolean} spins whether it does the same again and again
 */

/** @type {readonly BoardEnding[]} */
const ENDINGS = Object.freeze(["finished", "deadlock", "failed", "limit", "stuck", "cut"]);

// The word ENDED.
const GOES_ON = 0;
const ENDED = 1;
const ASKED = 2;

// The word MET: none, or twice the number of an agent and these; one more if it spins.
const NO_LIMIT = 0;
const MET = 2;

export class End {
  /** @param {Int32Array} words of the board @param {Buffer} text for the details */
  constructor(words, text) {
    this.words = words;
    this.text = text;
  }

  /** Nothing has ended yet. */
  begin() {
    store(this.words, WORD.ENDED, GOES_ON);
    store(this.words, WORD.OVER, 0);
    this.words[WORD.MET] = NO_LIMIT;
  }

  /** @returns {boolean} */
  hasEnded() {
    return load(this.words, WORD.ENDED) === ENDED;
  }

  /**
   * @returns {boolean} whether the run has ended, or an agent was asked to end it: what an agent reads at each ordinary
   * access, so it is no atomic load
   */
  mayHaveEnded() {
    return this.words[WORD.ENDED] !== GOES_ON;
  }

  /** Asks the agent whose code runs to end the run, and to say where it is. */
  ask() {
    compareExchange(this.words, WORD.ENDED, GOES_ON, ASKED);
  }

  /** @returns {boolean} whether that was asked */
  isAsked() {
    return load(this.words, WORD.ENDED) === ASKED;
  }

  /**
   * Waits until the run has ended.
   * @param {number} milliseconds at most
   */
  await(milliseconds) {
    const found = load(this.words, WORD.ENDED);
    if (found !== ENDED) wait(this.words, WORD.ENDED, found, milliseconds);
  }

  /** @returns {boolean} whether the agents of this run are cancelled */
  isOver() {
    return load(this.words, WORD.OVER) === 1;
  }

  /** @returns {boolean} whether agents are cancelled since none could move any more, though not all had ended */
  isStandstill() {
    const ending = ENDINGS[this.words[WORD.ENDING]];
    return this.isOver() && (ending === "stuck" || ending === "deadlock");
  }

  /** Cancels the agents of a run that has ended. */
  cancelAll() {
    store(this.words, WORD.OVER, 1);
  }

  /** @param {number} agent that has met a limit, for which the run ends @param {boolean} spins */
  meets(agent, spins) {
    this.words[WORD.MET] = MET + 2 * agent + (spins ? 1 : 0);
  }

  /** @returns {Met | undefined} who has met the limit that has ended the run; none if that is no agent's */
  met() {
    const met = this.words[WORD.MET];
    return met === NO_LIMIT ? undefined : { agent: (met - MET) >> 1, spins: (met & 1) === 1 };
  }

  /**
   * Ends the run. The agent's thread that does it still has to become idle.
   * @param {BoardEnding} ending
   * @param {string} detail
   */
  end(ending, detail) {
    // What may run out of stack comes first: else no agent would have the turn, in a run that hasn't ended.
    this.#note(ending, detail);
    store(this.words, WORD.TURN, NOBODY);
    store(this.words, WORD.ENDED, ENDED);
    notify(this.words, WORD.ENDED);
  }

  /**
   * The same, if no agent has the turn any more.
   * @param {BoardEnding} ending
   * @param {string} detail
   */
  close(ending, detail) {
    this.#note(ending, detail);
    store(this.words, WORD.ENDED, ENDED);
    notify(this.words, WORD.ENDED);
  }

  /**
   * How the run ended. What a deadlock is made of is in the log alone.
   * @returns {{ ending: BoardEnding, detail: string }}
   */
  result() {
    const detail = this.text.toString("utf8", 0, this.words[WORD.TEXT_LENGTH]);
    return { ending: ENDINGS[this.words[WORD.ENDING]], detail };
  }

  /** @param {BoardEnding} ending @param {string} detail */
  #note(ending, detail) {
    this.words[WORD.TEXT_LENGTH] = encode(encoder, detail, this.text).written;
    this.words[WORD.ENDING] = positionIn(ENDINGS, ending);
  }
}
