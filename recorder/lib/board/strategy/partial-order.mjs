// Partial-order sampling: each move that can be made has a random priority, and the one with the greatest is made. Then
// the moves that conflict with it get new priorities. So orders of moves that conflict are about equally likely,
// however many other moves there are.

import { AGENT_WORD, PHASE, wordOf } from "../../memory/layout.mjs";

// No priority was drawn yet.
const NONE = 0;

// In one of so many draws all agents get new priorities. Else an agent that waits in a loop for one with a low priority
// might go on for ever.
const RENEWAL = 64;

export class PartialOrder {
  /** @param {import("./drawing.mjs").StrategyInputs} parts */
  constructor({ words, random, asked, agents }) {
    this.words = words;
    this.random = random;
    this.asked = asked;
    this.agents = agents;
  }

  /** Nobody has a priority. */
  begin() {
    for (let agent = 0; agent < this.agents; agent += 1) this.words[wordOf(agent, AGENT_WORD.PRIORITY)] = NONE;
  }

  /** @param {import("./able.mjs").Able} able @returns {number} who moves next */
  drawn(able) {
    if (this.random.below(RENEWAL) === 0) this.begin();
    let next = able.agents[0];
    let greatest = NONE;
    for (let at = 0; at < able.count; at += 1) {
      const priority = this.#priority(able.agents[at]);
      if (priority <= greatest) continue;
      greatest = priority;
      next = able.agents[at];
    }
    this.#renew(next);
    return next;
  }

  /** @param {number} agent @returns {number} the priority of its next move */
  #priority(agent) {
    const { words } = this;
    const word = wordOf(agent, AGENT_WORD.PRIORITY);
    // The end of a time is offered now and then, each time anew: a low priority would put it off for long.
    const isOffered = words[wordOf(agent, AGENT_WORD.PHASE)] === PHASE.WAITS_TIMED;
    if (isOffered || words[word] === NONE) words[word] = (this.random.next() >>> 2) + 1;
    return words[word];
  }

  /** @param {number} next who moves now: the move after it, and those that conflict with it, get other priorities */
  #renew(next) {
    const { words, agents } = this;
    for (let agent = 0; agent < agents; agent += 1) {
      if (agent === next || this.asked.conflict(next, agent)) words[wordOf(agent, AGENT_WORD.PRIORITY)] = NONE;
    }
  }
}
