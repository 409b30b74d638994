// Who is at what, and the line of waiters: who waits where, in order of arrival.

import { AGENT_WORD, LOOP, PHASE, WORD, wordOf } from "../memory/layout.mjs";
import { NO_WAITER } from "./async-waiters.mjs";

const { load } = Atomics;

export class WaiterLine {
  /**
   * @param {Int32Array} words of the board
   * @param {number} agents how many
   * @param {import("./async-waiters.mjs").AsyncWaiters} [waiters] of a program: the waits in which nobody sleeps
   * @param {import("./lags.mjs").Lags} [lags] of a program
   */
  constructor(words, agents, waiters, lags) {
    this.words = words;
    this.agents = agents;
    this.waiters = waiters;
    this.lags = lags;
  }

  /** Nobody waits. @param {number} [starts] how many agents begin by themselves: the others are none yet */
  begin(starts = this.agents) {
    this.words[WORD.TICKETS] = 0;
    for (let agent = 0; agent < this.agents; agent += 1) {
      this.become(agent, agent < starts ? PHASE.RUNS : PHASE.FINISHED);
    }
  }

  /** @param {number} agent @returns {number} one of `PHASE` */
  phase(agent) {
    return load(this.words, wordOf(agent, AGENT_WORD.PHASE));
  }

  /** @param {number} agent @param {number} phase one of `PHASE` */
  become(agent, phase) {
    this.words[wordOf(agent, AGENT_WORD.PHASE)] = phase;
  }

  /**
   * An agent joins the line of waiters, at its end.
   * @param {number} agent
   * @param {number} block
   * @param {number} byte
   * @param {boolean} timed
   */
  join(agent, block, byte, timed) {
    const { words } = this;
    words[wordOf(agent, AGENT_WORD.WHERE_BLOCK)] = block;
    words[wordOf(agent, AGENT_WORD.WHERE_BYTE)] = byte;
    words[wordOf(agent, AGENT_WORD.TICKET)] = this.ticket();
    this.become(agent, timed ? PHASE.WAITS_TIMED : PHASE.WAITS);
  }

  /**
   * Takes the oldest waiters of a place off the line.
   * @param {number} block
   * @param {number} byte
   * @param {number | undefined} count how many at most: no count is no bound, and a negative one is 0
   * @returns {number} how many were woken
   */
  notify(block, byte, count) {
    let woken = 0;
    while ((count === undefined || woken < count) && this.#wakeOldest(block, byte)) woken += 1;
    return woken;
  }

  /** @returns {{ agent: number, block: number, byte: number }[]} who waits where, in order of arrival */
  waiting() {
    const { words } = this;
    const all = Array.from({ length: this.agents }, (_, agent) => agent).filter((agent) => this.waitsInBlock(agent));
    return all.sort((one, other) => this.#ticket(one) - this.#ticket(other)).map((agent) => ({
      agent,
      block: words[wordOf(agent, AGENT_WORD.WHERE_BLOCK)],
      byte: words[wordOf(agent, AGENT_WORD.WHERE_BYTE)],
    }));
  }

  /** @returns {number} a number that is greater than those of all that have joined the line before */
  ticket() {
    this.words[WORD.TICKETS] += 1;
    return this.words[WORD.TICKETS] - 1;
  }

  /** @param {number} agent @returns {boolean} whether there is a move for it: also the end of a wait's time */
  canMove(agent) {
    const phase = this.phase(agent);
    return phase === PHASE.ASKS || phase === PHASE.WOKEN || phase === PHASE.WAITS_TIMED;
  }

  /** @param {number} agent @returns {boolean} whether it asks for a call, or was woken */
  asks(agent) {
    const phase = this.phase(agent);
    return phase === PHASE.ASKS || phase === PHASE.WOKEN;
  }

  /** @param {number} agent */
  waits(agent) {
    const phase = this.words[wordOf(agent, AGENT_WORD.PHASE)];
    return phase === PHASE.WAITS || phase === PHASE.WAITS_TIMED;
  }

  /** @param {number} agent @returns {boolean} whether it waits at a place of a block, and not in its event loop */
  waitsInBlock(agent) {
    return this.waits(agent) && this.words[wordOf(agent, AGENT_WORD.WHERE_BLOCK)] >= 0;
  }

  /** @param {number} agent @returns {boolean} whether its event loop has nothing to do */
  isIdle(agent) {
    return this.waits(agent) && this.words[wordOf(agent, AGENT_WORD.WHERE_BLOCK)] === LOOP;
  }

  /**
   * Takes the oldest waiter of a place off the line. After a wait in which no agent sleeps, the event loop goes on.
   * @param {number} block
   * @param {number} byte
   * @returns {boolean} whether there was one
   */
  #wakeOldest(block, byte) {
    const { waiters } = this;
    const agent = this.#oldest(block, byte);
    const slot = waiters === undefined ? NO_WAITER : waiters.oldest(block, byte);
    if (waiters !== undefined && slot !== NO_WAITER && (agent < 0 || waiters.ticket(slot) < this.#ticket(agent))) {
      this.#wakeOldest(LOOP, waiters.notify(slot));
      return true;
    }
    if (agent < 0) return false;
    this.lags?.wakes(agent);
    this.become(agent, PHASE.WOKEN);
    return true;
  }

  /**
   * @param {number} block
   * @param {number} byte
   * @returns {number} the agent that has waited longest at a place, or -1
   */
  #oldest(block, byte) {
    const { words } = this;
    let oldest = -1;
    for (let agent = 0; agent < this.agents; agent += 1) {
      const isHere = this.waits(agent)
        && words[wordOf(agent, AGENT_WORD.WHERE_BLOCK)] === block
        && words[wordOf(agent, AGENT_WORD.WHERE_BYTE)] === byte;
      if (isHere && (oldest < 0 || this.#ticket(agent) < this.#ticket(oldest))) oldest = agent;
    }
    return oldest;
  }

  /** @param {number} agent */
  #ticket(agent) {
    return this.words[wordOf(agent, AGENT_WORD.TICKET)];
  }
}
