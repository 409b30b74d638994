// Which agents only read the same again: their last calls each come again within few, with the same answers, and no
// byte has changed meanwhile. Such an agent goes on only when another one does something. It is noted only if it
// matters: in runs with timed waits, since the time of a wait may be up meanwhile; and in a program with a thread that
// seems to spin for good. An agent that spins for a while before it sleeps isn't one, so many calls in a row are
// needed.

import { AGENT_WORD, WORD, wordOf } from "../memory/layout.mjs";
import { SPIN_CALLS } from "../memory/records.mjs";

export class Spins {
  /** @param {Int32Array} words of the board @param {number} agents how many */
  constructor(words, agents) {
    this.words = words;
    this.agents = agents;
  }

  /** A run begins. */
  begin() {
    this.words[WORD.HAS_TIMED] = 0;
    for (let agent = 0; agent < this.agents; agent += 1) this.words[wordOf(agent, AGENT_WORD.SAME)] = 0;
  }

  /** From now on calls are looked at. */
  watch() {
    this.words[WORD.HAS_TIMED] = 1;
  }

  /** @returns {boolean} whether calls are looked at */
  isWatching() {
    return this.words[WORD.HAS_TIMED] === 1;
  }

  /** Something has changed that each agent may look at. */
  news() {
    if (!this.isWatching()) return;
    for (let agent = 0; agent < this.agents; agent += 1) this.words[wordOf(agent, AGENT_WORD.SAME)] = 0;
  }

  /** @param {number} agent that has found something new, such as the time */
  found(agent) {
    this.words[wordOf(agent, AGENT_WORD.SAME)] = 0;
  }

  /** @param {number} agent whose call was the same as one of its last few, with the same answer */
  repeated(agent) {
    this.words[wordOf(agent, AGENT_WORD.SAME)] += 1;
  }

  /** @param {number} agent @returns {boolean} whether it only reads the same again */
  spins(agent) {
    return this.words[wordOf(agent, AGENT_WORD.SAME)] >= SPIN_CALLS;
  }
}
