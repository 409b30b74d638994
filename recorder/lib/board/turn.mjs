// Whose turn it is. The turn goes from agent to agent. The one that has it asks for its next call, the strategy picks
// who moves next, and the turn is handed to that agent's thread. No other thread is between them, so a call costs one
// change of threads at most, and none if the same agent goes on.

import { AGENT_WORD, NOBODY, ORDER, WORD, WORKER_STATUS, agentOf, inCall, inCode, wordOf } from "../memory/layout.mjs";
import { uncurried } from "../primordials.mjs";
import { Patience } from "../processes/patience.mjs";

const { load, store, add, compareExchange, wait, notify } = Atomics;
const writeText = uncurried(Buffer.prototype.write);

/** How many bytes there are for the reason why an agent's worker has ended. */
export const REASON_BYTES = 4_096;

/** No thread changes it, and none wakes those that wait here. */
const NEVER = new Int32Array(new SharedArrayBuffer(4));

// How long an agent that was silent may take to say where it is, at most. It gets no more time than it was silent for.
const SECONDS_TO_ANSWER = 1;

// The word GO of an agent: nothing is new to it; it may go on; or its run is over, which it doesn't know yet.
const NOTHING = 0;
const GOES_ON = 1;
const IS_OVER = 2;

// How long an agent may take to learn that its run is over. It has only to get a processor, so that takes long on a
// slow machine alone. An agent that ran out of stack in a call never learns it.
const SECONDS_TO_LEARN = 10;

export class Turn {
  /**
   * @param {Int32Array} words of the board
   * @param {Buffer} reasons why workers died: so many bytes for each agent
   * @param {import("./end.mjs").End} end
   * @param {number} agents how many
   */
  constructor(words, reasons, end, agents) {
    this.words = words;
    this.reasons = reasons;
    this.end = end;
    this.agents = agents;
    /** The agent whose own code made no call for too long, so that the run was ended; else `NOBODY`. */
    this.silent = NOBODY;
  }

  /** Nobody has the turn yet, and nobody is to wake up. */
  begin() {
    store(this.words, WORD.TURN, NOBODY);
    for (let agent = 0; agent < this.agents; agent += 1) store(this.words, wordOf(agent, AGENT_WORD.GO), NOTHING);
  }

  // The part of the agent that has the turn.

  /**
   * An agent's own code makes a call, or ends.
   * @param {number} agent
   * @returns {boolean} false if the run has ended meanwhile
   */
  enter(agent) {
    return compareExchange(this.words, WORD.TURN, inCode(agent), inCall(agent)) === inCode(agent);
  }

  /** @param {number} agent whose own code goes on */
  leave(agent) {
    add(this.words, WORD.TICKS, 1);
    store(this.words, WORD.TURN, inCode(agent));
  }

  /** @param {number} agent @returns {boolean} whether the agent has the turn, in a call of Atomics */
  isInCall(agent) {
    return load(this.words, WORD.TURN) === inCall(agent);
  }

  /** @param {number} agent gets the turn; its worker may just have died */
  give(agent) {
    store(this.words, WORD.TURN, inCall(agent));
    if (load(this.words, wordOf(agent, AGENT_WORD.STATUS)) === WORKER_STATUS.DEAD) this.#dies(agent);
    else this.wake(agent);
  }

  /**
   * An agent gets the turn to begin what it was ordered to do.
   * @param {number} agent
   */
  start(agent) {
    const { words } = this;
    compareExchange(words, wordOf(agent, AGENT_WORD.STATUS), WORKER_STATUS.IDLE, WORKER_STATUS.BUSY);
    store(words, WORD.TURN, inCall(agent));
    if (load(words, wordOf(agent, AGENT_WORD.STATUS)) === WORKER_STATUS.DEAD) {
      this.#dies(agent);
      return;
    }
    const word = wordOf(agent, AGENT_WORD.START);
    store(words, word, load(words, WORD.RUN));
    notify(words, word);
  }

  /**
   * Lets an agent begin, which then sleeps until it gets the turn.
   * @param {number} agent
   */
  call(agent) {
    const { words } = this;
    store(words, wordOf(agent, AGENT_WORD.STATUS), WORKER_STATUS.BUSY);
    const word = wordOf(agent, AGENT_WORD.START);
    store(words, word, load(words, WORD.RUN));
    notify(words, word);
  }

  /** @param {number} agent that sleeps */
  wake(agent) {
    this.#wakeFor(agent, GOES_ON);
  }

  /** @param {number} agent that sleeps, or is about to: its run is over */
  cancel(agent) {
    this.#wakeFor(agent, IS_OVER);
  }

  /** @param {number} agent sleeps until it has the turn, or is cancelled */
  sleep(agent) {
    const word = wordOf(agent, AGENT_WORD.GO);
    while (load(this.words, word) === NOTHING) wait(this.words, word, NOTHING);
    // One that is cancelled notes first where its code is.
    compareExchange(this.words, word, GOES_ON, NOTHING);
  }

  /** @param {number} agent knows that its run is over: from here on its own code takes the time */
  acknowledgeEnd(agent) {
    store(this.words, wordOf(agent, AGENT_WORD.GO), NOTHING);
  }

  /**
   * Sleeps until there is something to begin. What is left of an earlier run wakes no agent here.
   * @param {number} agent
   * @param {number} last the number of the run in which it began something last
   * @returns {number} that of the run in which it begins something now
   */
  awaitStart(agent, last) {
    const word = wordOf(agent, AGENT_WORD.START);
    while (load(this.words, word) === last) wait(this.words, word, last);
    return load(this.words, word);
  }

  /** @param {number} agent @returns {number} the number of the run in which it, or its worker before, began last */
  lastStart(agent) {
    return load(this.words, wordOf(agent, AGENT_WORD.START));
  }

  /** @param {number} agent whose code has ended, and that can begin again */
  becomeIdle(agent) {
    const word = wordOf(agent, AGENT_WORD.STATUS);
    store(this.words, word, WORKER_STATUS.IDLE);
    notify(this.words, word);
  }

  /**
   * An agent goes on after the end of its run, whatever ends it: its thread sleeps here for good.
   * @param {number} agent
   * @returns {never}
   */
  parkForever(agent) {
    const word = wordOf(agent, AGENT_WORD.STATUS);
    store(this.words, word, WORKER_STATUS.PARKED);
    notify(this.words, word);
    for (;;) wait(NEVER, 0, 0);
  }

  // The referee's part.

  /**
   * Whether an agent can run again. One that goes on without an end, is parked, or whose worker died, can't.
   * @param {number} agent
   * @param {number} milliseconds for how long to wait for it, from when it knows that its run is over
   */
  isBack(agent, milliseconds) {
    const word = wordOf(agent, AGENT_WORD.STATUS);
    if (load(this.words, word) === WORKER_STATUS.BUSY) this.#awaitBack(agent, milliseconds);
    return load(this.words, word) === WORKER_STATUS.IDLE;
  }

  /** @param {number} agent whose own code may go on @param {number} milliseconds as above */
  #awaitBack(agent, milliseconds) {
    const word = wordOf(agent, AGENT_WORD.STATUS);
    const [learning, ending] = [SECONDS_TO_LEARN, milliseconds / 1_000].map((seconds) => new Patience(seconds));
    while (load(this.words, word) === WORKER_STATUS.BUSY) {
      if (!learning.isOver() && this.#isToLearn(agent)) ending.renew();
      if (ending.isOver()) return;
      wait(this.words, word, WORKER_STATUS.BUSY, ending.step);
    }
  }

  /** @param {number} agent @returns {boolean} */
  isParked(agent) {
    return load(this.words, wordOf(agent, AGENT_WORD.STATUS)) === WORKER_STATUS.PARKED;
  }

  /**
   * Waits for the end of the run. An agent that makes no call for too long ends it too.
   * @param {number} seconds
   * @returns {boolean} whether that was so
   */
  awaitEnd(seconds) {
    const { words } = this;
    let isSilent = false;
    this.silent = NOBODY;
    let ticks = load(words, WORD.TICKS);
    const patience = new Patience(seconds);
    while (!this.end.hasEnded()) {
      this.end.await(patience.step);
      if (ticks !== load(words, WORD.TICKS)) {
        ticks = load(words, WORD.TICKS);
        patience.renew();
      } else if (patience.isOver()) {
        isSilent = true;
        this.#endSilent(seconds);
      }
    }
    return isSilent;
  }

  // The main thread's part: workers come and go.

  /** @param {number} agent whose worker was started anew */
  arrive(agent) {
    store(this.words, wordOf(agent, AGENT_WORD.STATUS), WORKER_STATUS.IDLE);
  }

  /**
   * Takes note that a worker has died; if it had the turn, the run ends.
   * @param {number} agent
   * @param {string} why
   */
  die(agent, why) {
    const text = this.#reason(agent);
    text.fill(0);
    writeText(text, why, "utf8");
    const word = wordOf(agent, AGENT_WORD.STATUS);
    store(this.words, word, WORKER_STATUS.DEAD);
    notify(this.words, word);
    this.#dies(agent);
  }

  /** @param {number} agent that sleeps @param {number} why `GOES_ON` or `IS_OVER` */
  #wakeFor(agent, why) {
    const word = wordOf(agent, AGENT_WORD.GO);
    store(this.words, word, why);
    notify(this.words, word);
  }

  /** @param {number} agent @returns {boolean} whether it was cancelled, and doesn't know yet that its run is over */
  #isToLearn(agent) {
    return load(this.words, wordOf(agent, AGENT_WORD.GO)) === IS_OVER;
  }

  /** @param {number} agent that is dead, and has the turn perhaps */
  #dies(agent) {
    for (let turn = inCode(agent); turn <= inCall(agent); turn += 1) {
      if (compareExchange(this.words, WORD.TURN, turn, NOBODY) === turn) {
        const why = this.#reason(agent).toString("utf8").split("\0")[0];
        const whose = agent < this.agents ? `agent ${agent}'s` : "its";
        this.end.close("failed", `${whose} worker died: ${why}`);
      }
    }
  }

  /** @param {number} agent */
  #reason(agent) {
    return this.reasons.subarray(agent * REASON_BYTES, (agent + 1) * REASON_BYTES);
  }

  /** @param {number} seconds */
  #endSilent(seconds) {
    // An agent that makes ordinary accesses ends by itself.
    this.end.ask();
    const patience = new Patience(Math.min(SECONDS_TO_ANSWER, seconds));
    while (!this.end.hasEnded() && !patience.isOver()) this.end.await(patience.step);
    const turn = load(this.words, WORD.TURN);
    if (turn === NOBODY || compareExchange(this.words, WORD.TURN, turn, NOBODY) !== turn) return;
    const agent = agentOf(turn);
    // An agent whose stack ran out within a call never comes out of it. `init` and `check` are as within a call.
    if (turn !== inCode(agent)) {
      const isPlay = load(this.words, WORD.ORDER) === ORDER.PLAY;
      const what = isPlay ? `agent ${agent} didn't come out of a call of Atomics` : "it went on";
      this.end.close("failed", `${what} for ${seconds} s`);
      return;
    }
    this.silent = agent;
    this.end.meets(agent, false);
    this.end.close("limit", `agent ${agent} has made no call for ${seconds} s`);
  }
}
