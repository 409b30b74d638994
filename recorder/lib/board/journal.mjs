// What was done, counted: calls and moves of each agent, and what there is room for in a script.

import { SCRIPT_LIMITS } from "../../script/limits.mjs";
import { AGENT_WORD, WORD, wordOf } from "../memory/layout.mjs";

/** What is done at a time, by its number in the log; and how many moves each takes. */
export const MAKE = 0;
export const JOIN = 1;
export const LEAVE = 2;
export const TIME_UP = 3;
export const MOVES = Object.freeze([3, 2, 2, 2]);
export const MOST_MOVES = 3;

// How much of a script's text there is besides its calls and moves, at most.
const OTHER_TEXT = 16_384;

export class Journal {
  /**
   * @param {Int32Array} words of the board
   * @param {Float64Array} views that a script has, by their keys
   * @param {number} agents how many
   */
  constructor(words, views, agents) {
    this.words = words;
    this.views = views;
    this.agents = agents;
  }

  /** Nothing was done. */
  begin() {
    const { words } = this;
    words[WORD.MOVES] = 0;
    words[WORD.VIEWS] = 0;
    words[WORD.MESSAGES] = 0;
    words[WORD.ROOM] = SCRIPT_LIMITS.text - OTHER_TEXT;
    for (let agent = 0; agent < this.agents; agent += 1) {
      words[wordOf(agent, AGENT_WORD.CALLS)] = 0;
      words[wordOf(agent, AGENT_WORD.RETURNED)] = 0;
      words[wordOf(agent, AGENT_WORD.ORDINARY)] = 0;
    }
  }

  /**
   * Counts what was done.
   * @param {number} agent
   * @param {number} event
   */
  count(agent, event) {
    const { words } = this;
    words[WORD.MOVES] += MOVES[event];
    if (event === MAKE || event === JOIN) words[wordOf(agent, AGENT_WORD.CALLS)] += 1;
    if (event !== JOIN) words[wordOf(agent, AGENT_WORD.RETURNED)] += 1;
  }

  /** @param {number} agent @param {number} accesses how many ordinary reads and writes it has made */
  countOrdinary(agent, accesses) {
    this.words[wordOf(agent, AGENT_WORD.ORDINARY)] = accesses;
  }

  /** @returns {number} how many moves were made */
  moves() {
    return this.words[WORD.MOVES];
  }

  /** @returns {number} how many messages of a program were sent */
  get messages() {
    return this.words[WORD.MESSAGES];
  }

  /** Counts a message that is sent. @returns {number} its number */
  countMessage() {
    this.words[WORD.MESSAGES] += 1;
    return this.words[WORD.MESSAGES] - 1;
  }

  /**
   * How many of an agent's calls returned, and how many began.
   * @param {number} agent
   */
  progress(agent) {
    const { words } = this;
    return { returned: words[wordOf(agent, AGENT_WORD.RETURNED)], calls: words[wordOf(agent, AGENT_WORD.CALLS)] };
  }

  /** @param {number} agent @returns {number} how many ordinary reads and writes of an agent were seen */
  ordinary(agent) {
    return this.words[wordOf(agent, AGENT_WORD.ORDINARY)];
  }

  /**
   * Finds room for a view in the script.
   * @param {number} key that no other view has
   * @returns {boolean} false if a script can't have another
   */
  registers(key) {
    const count = this.words[WORD.VIEWS];
    for (let at = 0; at < count; at += 1) {
      if (this.views[at] === key) return true;
    }
    if (count === SCRIPT_LIMITS.views) return false;
    this.views[count] = key;
    this.words[WORD.VIEWS] = count + 1;
    return true;
  }

  /**
   * Finds room for a call in the text of the script.
   * @param {number} bytes that it takes at most, with its moves
   */
  takesText(bytes) {
    if (this.words[WORD.ROOM] < bytes) return false;
    this.words[WORD.ROOM] -= bytes;
    return true;
  }
}
