// Late agents: one that asks for a wait or a notify may be held there, as long as others can move. A wait is held until
// another agent has written at its place. So what a wait is to see may come before it, and a notify may come so late
// that it ends the next wait there, however many other moves lie between them.

import { MESSAGES, MESSAGE_BYTES } from "../../memory/blocks.mjs";
import { placeNumber } from "../../memory/known-places.mjs";
import { AGENT_WORD, WORD, wordOf } from "../../memory/layout.mjs";
import { FLAG } from "../../memory/log.mjs";

/** How likely it is that an agent is held when it asks for a wait or a notify. */
const IS_HELD = 0.5;

/**
 * In one of so many draws nobody is held any longer. Else one that waits in a loop for a held one might go on for ever.
 */
const RENEWAL = 256;

/** Nor is anybody after so many draws of one agent in a row: an agent that makes more calls alone meets a limit. */
const MOST_ALIKE = 200;

// The word LATE: a bit for each agent that is held, and above these how many draws of one agent came in a row.
const HELD = 0xffff;
const ALIKE_BITS = 16;

// Messages and event loops aren't held.
const FIRST_MESSAGE = placeNumber(MESSAGES, 0);

export class Late {
  /**
   * @param {Int32Array} words of the board
   * @param {import("../../memory/random.mjs").Random} random
   * @param {import("./pending-accesses.mjs").PendingAccesses} asked
   * @param {number} agents how many
   */
  constructor(words, random, asked, agents) {
    this.words = words;
    this.random = random;
    this.asked = asked;
    this.agents = agents;
  }

  /** A run begins: nobody is held. */
  begin() {
    this.words[WORD.LATE] = 0;
  }

  /**
   * An agent asks for a call.
   * @param {number} agent
   * @param {number} from the first place
   * @param {number} to the place behind the last one
   * @param {number} how its flags, as in the log
   */
  asks(agent, from, to, how) {
    this.#free(agent);
    if (from === to || (how & FLAG.WAITERS) === 0) return;
    if (from >= FIRST_MESSAGE && from < FIRST_MESSAGE + MESSAGE_BYTES) return;
    if (this.random.fraction() < IS_HELD) this.words[WORD.LATE] |= 1 << agent;
  }

  /** @param {import("./able.mjs").Able} able those that can move: the held ones are left out, if there are others */
  hold(able) {
    const { words, random } = this;
    if ((words[WORD.LATE] & HELD) === 0) return;
    if (random.below(RENEWAL) === 0) this.begin();
    if (this.#areHeld(able)) this.#free(this.#first(able));
    for (let at = able.count - 1; at >= 0; at -= 1) {
      if (this.#isHeld(able.agents[at])) able.remove(able.agents[at]);
    }
  }

  /** @param {number} next who moves now: if it writes, waits there are held no longer */
  moves(next) {
    const { words } = this;
    const held = words[WORD.LATE] & HELD;
    if (held === 0) return;
    const alike = next === words[WORD.LAST] ? (words[WORD.LATE] >>> ALIKE_BITS) + 1 : 0;
    words[WORD.LATE] = alike < MOST_ALIKE ? (alike << ALIKE_BITS) | held : 0;
    if ((this.#does(next) & FLAG.WRITES) === 0) return;
    for (let agent = 0; agent < this.agents; agent += 1) if (this.asked.conflict(agent, next)) this.#free(agent);
  }

  /** @param {import("./able.mjs").Able} able @returns {boolean} whether nobody else can move */
  #areHeld(able) {
    for (let at = 0; at < able.count; at += 1) if (!this.#isHeld(able.agents[at])) return false;
    return true;
  }

  /**
   * @param {import("./able.mjs").Able} able
   * @returns {number} who goes on if nobody else can: a wait before a notify
   */
  #first(able) {
    for (let at = 0; at < able.count; at += 1) {
      if ((this.#does(able.agents[at]) & FLAG.READS) !== 0) return able.agents[at];
    }
    return able.agents[this.random.below(able.count)];
  }

  /** @param {number} agent @returns {number} the flags of the call that it has asked for */
  #does(agent) {
    return this.words[wordOf(agent, AGENT_WORD.ASKS_HOW)];
  }

  /** @param {number} agent */
  #isHeld(agent) {
    return (this.words[WORD.LATE] & (1 << agent)) !== 0;
  }

  /** @param {number} agent */
  #free(agent) {
    this.words[WORD.LATE] &= ~(1 << agent);
  }
}
