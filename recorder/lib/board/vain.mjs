// Whether a program's run can do nothing more, though its timers go on. That is so if for many turns in a row only
// callbacks of timers have run, and none of them has done anything that matters: changed shared memory, made a call,
// sent or printed something, begun anything, or looked at the clock. And each timer that is still to be due must come
// from a line of code whose timers were among these lately: another one may still do something else, so it is waited
// for.

import { AGENT_WORD, LOOP, PHASE, WORD, wordOf } from "../memory/layout.mjs";

const { Int32Array, Set: EngineSet, SharedArrayBuffer } = globalThis;

/** After so many turns in vain nothing more is expected. */
const MOST = 2_000;

/** From here on it is noted which timers run. */
const HALF = MOST / 2;

/** So many turns in vain are shown, one by one. */
const MOST_SHOWN = 50;

/** In place of a row: the agent has other timers, or none was noted. */
const NEVER = -1;

// Which row of turns in vain it is, of those in which it was noted what runs; and for each agent the one in which it
// has rested last with no other timers.
const ROW = 0;
const FIRST_RESTED = 1;

export class Vain {
  /** @param {number} agents how many @returns {SharedArrayBuffer} */
  static memory(agents) {
    return new SharedArrayBuffer((FIRST_RESTED + agents) * 4);
  }

  /** @type {Set<unknown>} where the timers of this thread were made that have run in vain in a row */
  #places = new EngineSet();

  /** Which row that is. */
  #row = 0;

  /**
   * @param {SharedArrayBuffer} memory
   * @param {Int32Array} words of the board
   * @param {number} agents how many
   */
  constructor(memory, words, agents) {
    this.rows = new Int32Array(memory);
    this.words = words;
    this.agents = agents;
  }

  /** A run begins. */
  begin() {
    this.rows[ROW] += 1;
    this.words[WORD.VAIN] = 0;
  }

  /** Something was done that matters. */
  news() {
    if (this.words[WORD.VAIN] >= HALF) this.rows[ROW] += 1;
    this.words[WORD.VAIN] = 0;
  }

  /**
   * The callback of a timer begins: it is in vain if there is no news until the thread rests.
   * @param {() => unknown} place where the timer was made
   */
  turns(place) {
    this.words[WORD.VAIN] += 1;
    if (this.words[WORD.VAIN] < HALF) return;
    if (this.#row !== this.rows[ROW]) this.#places = new EngineSet();
    this.#row = this.rows[ROW];
    this.#places.add(place());
  }

  /** Whether the turn is shown that begins now. */
  get isShown() {
    return this.words[WORD.VAIN] <= MOST_SHOWN;
  }

  /**
   * A thread rests until a timer is due, or a time is up.
   * @param {number} agent
   * @param {() => unknown[]} places where all its timers and times were made
   */
  rests(agent, places) {
    const isNoted = this.words[WORD.VAIN] >= HALF && this.#row === this.rows[ROW];
    const knows = isNoted && places().every((place) => place !== undefined && this.#places.has(place));
    this.rows[FIRST_RESTED + agent] = knows ? this.#row : NEVER;
  }

  /** @returns {boolean} whether nothing more is expected */
  isAll() {
    if (this.words[WORD.VAIN] < MOST) return false;
    for (let agent = 0; agent < this.agents; agent += 1) if (!this.#isDone(agent)) return false;
    return true;
  }

  /**
   * @param {number} agent
   * @returns {boolean} whether it has ended, waits for others, or has only timers that run in vain
   */
  #isDone(agent) {
    const phase = this.words[wordOf(agent, AGENT_WORD.PHASE)];
    if (phase === PHASE.FINISHED || phase === PHASE.WAITS) return true;
    const isLoop = this.words[wordOf(agent, AGENT_WORD.WHERE_BLOCK)] === LOOP;
    return phase === PHASE.WAITS_TIMED && isLoop && this.rows[FIRST_RESTED + agent] === this.rows[ROW];
  }
}
