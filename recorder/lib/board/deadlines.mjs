// Whose time is up first, and what is known about a wait that ends by its time: whether another agent could have gone
// on. An agent that only reads the same again, asleep between or not, counts as one that can't.

import { AGENT_WORD, NOBODY, PHASE, WORD, wordOf } from "../memory/layout.mjs";
import { positionIn } from "../primordials.mjs";

const { Float64Array, SharedArrayBuffer } = globalThis;

/** How a wait ends. */
export const END = Object.freeze({
  /** Somebody has notified it. */
  WOKEN: 0,
  /** Its time is up, and another agent could go on. */
  IN_TIME: 1,
  /** Its time is up, and each other agent could only go on after the time of its own wait was up. */
  LAST: 2,
  /** Its time is up, and no other agent could ever go on. */
  ALONE: 3,
});

/**
 * @typedef {object} Early the early end of a timed wait: it ended before an agent moved that could
 * @property {number} milliseconds the timeout
 * @property {number} other that agent
 * @property {"call" | "task" | "wait"} before what that agent was about to do: make a call; begin another task of its
 * event loop, whose timer it was; or go on from a wait, too
 * @property {number} more how many further waits ended early in the run
 */

/** The word EARLY_BEFORE is a position here. */
const BEFORE = Object.freeze(/** @type {const} */ (["wait", "call", "task"]));

export class Deadlines {
  /** @returns {SharedArrayBuffer} */
  static memory() {
    return new SharedArrayBuffer(8);
  }

  /**
   * @param {SharedArrayBuffer} memory
   * @param {Int32Array} words of the board
   * @param {import("./clock.mjs").Clock} clock
   * @param {import("./spins.mjs").Spins} spins
   * @param {number} agents how many
   * @param {import("./lags.mjs").Lags} [lags] of a program
   */
  constructor(memory, words, clock, spins, agents, lags) {
    this.longest = new Float64Array(memory);
    this.words = words;
    this.clock = clock;
    this.spins = spins;
    this.agents = agents;
    this.lags = lags;
  }

  /** Nobody waits, and nothing has ended. */
  begin() {
    this.spins.begin();
    this.lags?.begin();
    this.words[WORD.EARLY] = 0;
    this.longest[0] = 0;
  }

  /** @param {number} agent @returns {boolean} whether its wait has a time */
  isTimed(agent) {
    return this.words[wordOf(agent, AGENT_WORD.PHASE)] === PHASE.WAITS_TIMED;
  }

  /** @param {number} agent @returns {boolean} whether it asks for a call, or was woken */
  isReady(agent) {
    const phase = this.words[wordOf(agent, AGENT_WORD.PHASE)];
    return phase === PHASE.ASKS || phase === PHASE.WOKEN;
  }

  /** @param {number} agent whose wait has a time @returns {boolean} whether that may be up though others can move */
  mayEndEarly(agent) {
    return this.lags === undefined || this.lags.allow(this.clock.deadline(agent), agent);
  }

  /** @returns {number} the agent whose wait's time is up first, or `NOBODY` */
  first() {
    let first = NOBODY;
    for (let agent = 0; agent < this.agents; agent += 1) {
      if (this.isTimed(agent) && (first === NOBODY || this.#isBefore(agent, first))) first = agent;
    }
    return first;
  }

  /**
   * A wait goes on: the clock shows it, and an early end is noted.
   * @param {number} agent that has the turn
   * @param {number} milliseconds the timeout of its wait; 0 if it has none
   * @returns {number} one of `END`
   */
  end(agent, milliseconds) {
    if (this.words[wordOf(agent, AGENT_WORD.PHASE)] === PHASE.WOKEN) return END.WOKEN;
    const other = this.#before(agent);
    if (other !== NOBODY && !this.clock.hasPassed(agent)) {
      const isCall = this.words[wordOf(other, AGENT_WORD.PHASE)] === PHASE.ASKS;
      this.#noteEarly(milliseconds, other, isCall ? "call" : "wait");
    }
    this.lags?.ends(agent);
    this.clock.reachDeadline(agent);
    if (other !== NOBODY || !(milliseconds > 0)) return END.IN_TIME;
    return this.#isAlone(agent) ? END.ALONE : END.LAST;
  }

  /**
   * Whether the first timer of an event loop may be due early, though the loop has other tasks.
   * @param {number} agent that has the turn
   * @param {number} milliseconds until the timer is due
   */
  mayPassEarly(agent, milliseconds) {
    return this.lags === undefined || this.lags.allowOwn(milliseconds, agent);
  }

  /**
   * The first timer of an event loop is due early: the loop has other tasks.
   * @param {number} agent that has the turn
   * @param {number} milliseconds until the timer is due
   */
  passEarly(agent, milliseconds) {
    this.#noteEarly(milliseconds, agent, "task");
    this.lags?.passes(milliseconds, agent);
    this.clock.pass(milliseconds);
  }

  /** @returns {Early | undefined} the longest wait of a run that has ended early; undefined: none has */
  early() {
    const { words } = this;
    if (words[WORD.EARLY] === 0) return undefined;
    return {
      milliseconds: this.longest[0], other: words[WORD.EARLY_OTHER], before: BEFORE[words[WORD.EARLY_BEFORE]],
      more: words[WORD.EARLY] - 1,
    };
  }

  /**
   * @param {number} agent
   * @returns {number} another agent that can go on before the time of a wait is up, or `NOBODY`
   */
  #before(agent) {
    let waits = NOBODY;
    for (let other = 0; other < this.agents; other += 1) {
      if (other === agent) continue;
      if (this.isReady(other) && !this.spins.spins(other)) return other;
      if (this.isTimed(other) && waits === NOBODY && this.#isBefore(other, agent)) waits = other;
    }
    return waits;
  }

  /** @param {number} agent @returns {boolean} whether all others have ended, wait without a time, or spin */
  #isAlone(agent) {
    for (let other = 0; other < this.agents; other += 1) {
      if (other !== agent && this.isTimed(other)) return false;
    }
    return true;
  }

  /**
   * @param {number} agent that spins
   * @returns {boolean} whether another agent can go on, or will when its time is up, and doesn't spin
   */
  othersGoOn(agent) {
    for (let other = 0; other < this.agents; other += 1) {
      const goesOn = this.isReady(other) || this.isTimed(other);
      if (other !== agent && goesOn && !this.spins.spins(other)) return true;
    }
    return false;
  }

  /**
   * Whether the time of one wait is up before that of another: the deadline decides, and of two with the same deadline
   * the one that began first. A wait in a loop that only reads the same again comes after all others.
   * @param {number} one
   * @param {number} other
   */
  #isBefore(one, other) {
    const isLast = this.spins.spins(one);
    if (isLast !== this.spins.spins(other)) return !isLast;
    const mine = this.clock.deadline(one);
    const theirs = this.clock.deadline(other);
    return mine === theirs ? this.#ticket(one) < this.#ticket(other) : mine < theirs;
  }

  /** @param {number} agent */
  #ticket(agent) {
    return this.words[wordOf(agent, AGENT_WORD.TICKET)];
  }

  /** @param {number} milliseconds @param {number} other that could go on before @param {Early["before"]} before */
  #noteEarly(milliseconds, other, before) {
    const { words } = this;
    words[WORD.EARLY] += 1;
    if (milliseconds <= this.longest[0]) return;
    this.longest[0] = milliseconds;
    words[WORD.EARLY_OTHER] = other;
    words[WORD.EARLY_BEFORE] = positionIn(BEFORE, before);
  }
}
