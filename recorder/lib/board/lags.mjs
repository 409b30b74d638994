// How far the clock of a program's run is ahead of each thread that could move. If a time ends early, the clock goes on
// though threads can move, and these lag by so much more. A thread that is woken lags as much as the one that wakes it,
// and one whose time is up as much as when its wait began. A time may end early only if nothing lags by more than a
// bound then. So what passes early doesn't add up from move to move.

import { AGENT_WORD, LOOP, PHASE, WORD, wordOf } from "../memory/layout.mjs";

const { Float64Array, Math: { max, min }, SharedArrayBuffer } = globalThis;

export class Lags {
  /** @param {number} agents how many @returns {SharedArrayBuffer} */
  static memory(agents) {
    return new SharedArrayBuffer(agents * 8);
  }

  /**
   * @param {SharedArrayBuffer} memory
   * @param {Int32Array} words of the board
   * @param {import("./clock.mjs").Clock} clock
   * @param {import("./spins.mjs").Spins} spins
   * @param {import("./strategy.mjs").Rules} rules
   */
  constructor(memory, words, clock, spins, { early = 0 }) {
    this.lags = new Float64Array(memory);
    this.words = words;
    this.clock = clock;
    this.spins = spins;
    this.most = early;
  }

  /** A run begins: nobody lags. */
  begin() {
    this.lags.fill(0);
  }

  /** @param {number} agent that can move from now on, by what the agent does that has the turn */
  wakes(agent) {
    const waker = this.words[WORD.LAST];
    const lag = waker < 0 ? 0 : this.lags[waker];
    // Timers of its event loop may have begun when it lagged more.
    const isLoop = this.words[wordOf(agent, AGENT_WORD.WHERE_BLOCK)] === LOOP;
    this.lags[agent] = isLoop && this.#isTimed(agent) ? max(lag, this.lags[agent]) : lag;
  }

  /**
   * Whether a time may end before all that could move have moved.
   * @param {number} deadline
   * @param {number} agent whose it is
   * @returns {boolean} whether nothing lags too much then
   */
  allow(deadline, agent) {
    const ahead = deadline - this.clock.now();
    for (let other = 0; other < this.words[WORD.JOINED]; other += 1) {
      if (other !== agent && this.#lagOf(other, ahead) > this.most) return false;
    }
    return true;
  }

  /**
   * @param {number} milliseconds
   * @param {number} agent whose loop has tasks
   * @returns {boolean} the same of its own timer
   */
  allowOwn(milliseconds, agent) {
    return this.lags[agent] + milliseconds <= this.most && this.allow(this.clock.now() + milliseconds, agent);
  }

  /** @param {number} agent whose time ends now, before the clock goes on to it */
  ends(agent) {
    if (this.clock.isAtOnce(agent)) return;
    const ahead = this.clock.deadline(agent) - this.clock.now();
    if (ahead > 0) this.passes(ahead);
  }

  /** @param {number} milliseconds by which the clock goes on @param {number} [busy] an agent that has other tasks */
  passes(milliseconds, busy) {
    for (let agent = 0; agent < this.words[WORD.JOINED]; agent += 1) {
      if (agent === busy || this.#couldMove(agent)) this.lags[agent] += milliseconds;
      else if (this.#isTimed(agent)) this.lags[agent] += this.#lateBy(agent, milliseconds);
    }
  }

  /** @param {number} agent @returns {boolean} whether it waits for a time, and does more than to read the same again */
  #isTimed(agent) {
    return this.words[wordOf(agent, AGENT_WORD.PHASE)] === PHASE.WAITS_TIMED && !this.spins.spins(agent);
  }

  /**
   * @param {number} agent that waits for a time
   * @param {number} milliseconds by which the clock is to go on
   * @returns {number} how many of them pass after its time is up
   */
  #lateBy(agent, milliseconds) {
    return max(0, min(milliseconds, this.clock.now() + milliseconds - this.clock.deadline(agent)));
  }

  /** @param {number} agent @returns {boolean} whether it could do something new now */
  #couldMove(agent) {
    const phase = this.words[wordOf(agent, AGENT_WORD.PHASE)];
    const isReady = phase === PHASE.ASKS || phase === PHASE.WOKEN
      || (phase === PHASE.WAITS_TIMED && this.clock.isAtOnce(agent));
    return isReady && !this.spins.spins(agent);
  }

  /**
   * @param {number} agent
   * @param {number} ahead by how much the clock is to go on
   * @returns {number} how much it lags then; it doesn't if it can't move
   */
  #lagOf(agent, ahead) {
    if (this.#couldMove(agent)) return this.lags[agent] + ahead;
    if (!this.#isTimed(agent)) return 0;
    const late = this.clock.now() + ahead - this.clock.deadline(agent);
    return max(late, this.lags[agent] + this.#lateBy(agent, ahead));
  }
}
