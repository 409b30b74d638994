// The choices of one agent in a run, in shared memory. The agent writes them as it makes them, and the referee reads
// them at the run's end. If a run is to have certain choices, the referee gives them before.

import { MOST_CHOICES, askedBy, choiceOf, returnedBy } from "../../script/choices.mjs";

/** @typedef {import("../../script/choices.mjs").AgentChoice} AgentChoice */

// Agents may change what they find, so the engine's own functions are kept here, before.
const { Int32Array, SharedArrayBuffer } = globalThis;

/** Whether choices are given: none are; they are as far as they fit; or the run ends at one that doesn't. */
export const GIVEN = Object.freeze({ NONE: 0, LENIENTLY: 1, EXACTLY: 2 });

const MADE = 0;
const HOW = 1;
const LENGTH = 2;
const HEAD = 3;

// Of each choice that was made: what was asked, what was returned, how many events of the log and how many draws come
// before it, and its line of code.
const ASKED = 0;
const RETURNED = 1;
const EVENT = 2;
const DRAWS = 3;
const SOURCE = 4;
const WORDS_EACH = 5;

const FIRST_GIVEN = HEAD + MOST_CHOICES * WORDS_EACH;
const GIVEN_EACH = 2;

/**
 * @typedef {{ choice: AgentChoice, event: number, draws: number, source: number }} ChoiceMade with the number of its
 * line
 */

export class Choices {
  /** @returns {SharedArrayBuffer} */
  static memory() {
    return new SharedArrayBuffer((FIRST_GIVEN + MOST_CHOICES * GIVEN_EACH) * 4);
  }

  /** @param {SharedArrayBuffer} memory of one agent */
  constructor(memory) {
    this.words = new Int32Array(memory);
  }

  /**
   * A run begins. No agent may be busy.
   * @param {AgentChoice[]} [given] which choices the agent is to make; else the seed draws them
   * @param {boolean} [isExact] whether the run ends if the agent asks something else
   */
  begin(given, isExact = false) {
    const { words } = this;
    words[MADE] = 0;
    words[HOW] = given === undefined ? GIVEN.NONE : isExact ? GIVEN.EXACTLY : GIVEN.LENIENTLY;
    words[LENGTH] = given?.length ?? 0;
    given?.forEach((choice, at) => {
      const word = FIRST_GIVEN + at * GIVEN_EACH;
      words[word + ASKED] = askedBy(choice);
      words[word + RETURNED] = returnedBy(choice);
    });
  }

  /** @returns {ChoiceMade[]} those that the agent has made */
  made() {
    const { words } = this;
    return Array.from({ length: words[MADE] }, (_, at) => {
      const word = HEAD + at * WORDS_EACH;
      const choice = choiceOf(words[word + ASKED], words[word + RETURNED]);
      return { choice, event: words[word + EVENT], draws: words[word + DRAWS], source: words[word + SOURCE] };
    });
  }

  // The agent's part.

  /** One of `GIVEN`. */
  get how() {
    return this.words[HOW];
  }

  /** How many choices are given. */
  get given() {
    return this.words[LENGTH];
  }

  /** How many the agent has made. */
  get count() {
    return this.words[MADE];
  }

  /** @param {number} at which of those that are given @returns {number} what is to be asked */
  askedAt(at) {
    return this.words[FIRST_GIVEN + at * GIVEN_EACH + ASKED];
  }

  /** @param {number} at which of those that are given @returns {number} what is returned */
  returnedAt(at) {
    return this.words[FIRST_GIVEN + at * GIVEN_EACH + RETURNED];
  }

  /**
   * Writes down a choice.
   * @param {number} asked
   * @param {number} returned
   * @param {number} event
   * @param {number} draws
   * @param {number} source
   */
  note(asked, returned, event, draws, source) {
    const { words } = this;
    const word = HEAD + words[MADE] * WORDS_EACH;
    words[word + ASKED] = asked;
    words[word + RETURNED] = returned;
    words[word + EVENT] = event;
    words[word + DRAWS] = draws;
    words[word + SOURCE] = source;
    words[MADE] += 1;
  }
}
