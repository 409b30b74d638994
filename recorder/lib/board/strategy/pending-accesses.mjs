// What agents ask for, before it is done: which bytes a call will touch, and how. So a strategy knows which calls
// conflict and which are private.

import { AGENT_WORD, LOOP, PHASE, wordOf } from "../../memory/layout.mjs";
import { FLAG } from "../../memory/log.mjs";

/** Set beside the flags of a call that needs no draw. */
const GOES_ON = 64;

// After so many calls in a row that concern no other agent, others may move before each further one. Perhaps the agent
// waits in a loop for something that no pilot has seen.
const MOST_IN_A_ROW = 128;

export class PendingAccesses {
  /** @param {Int32Array} words of the board @param {import("../../memory/known-places.mjs").KnownPlaces} places */
  constructor(words, places) {
    this.words = words;
    this.places = places;
  }

  /** @param {number} agent whose part in a run begins */
  begin(agent) {
    this.words[wordOf(agent, AGENT_WORD.PRIVATE_CALLS)] = 0;
  }

  /**
   * An agent asks for a call.
   * @param {number} agent
   * @param {number} from the first place that it touches
   * @param {number} to the place behind the last one; if the call touches nothing, both are 0
   * @param {number} how its flags, as in the log
   * @param {number} known the number of the first place in what pilots have shown
   * @param {boolean} everywhere whether a draw is made before each call
   */
  note(agent, from, to, how, known, everywhere) {
    const { words, places } = this;
    const isPrivate = !everywhere && places.canBePrivate(how)
      && places.isPrivate(agent, known, known + to - from, how !== FLAG.READS);
    const row = wordOf(agent, AGENT_WORD.PRIVATE_CALLS);
    words[row] = isPrivate ? words[row] + 1 : 0;
    words[wordOf(agent, AGENT_WORD.ASKS_FROM)] = from;
    words[wordOf(agent, AGENT_WORD.ASKS_TO)] = to;
    words[wordOf(agent, AGENT_WORD.ASKS_HOW)] = isPrivate && words[row] <= MOST_IN_A_ROW ? how | GOES_ON : how;
  }

  /** @param {number} agent that asks @returns {boolean} whether its call is made without a draw */
  goesOn(agent) {
    return (this.words[wordOf(agent, AGENT_WORD.ASKS_HOW)] & GOES_ON) !== 0;
  }

  /**
   * Whether it matters which of two agents moves first: both touch a byte and one writes it, or both touch the waiters
   * of a place.
   * @param {number} agent
   * @param {number} other
   */
  conflict(agent, other) {
    const { words } = this;
    const from = wordOf(agent, 0);
    const otherFrom = wordOf(other, 0);
    const areApart = words[from + AGENT_WORD.ASKS_TO] <= words[otherFrom + AGENT_WORD.ASKS_FROM]
      || words[otherFrom + AGENT_WORD.ASKS_TO] <= words[from + AGENT_WORD.ASKS_FROM];
    if (areApart) return false;
    const how = this.#does(agent);
    const does = this.#does(other);
    if ((how & does & FLAG.WAITERS) !== 0) return true;
    const touches = FLAG.READS | FLAG.WRITES;
    return (how & touches) !== 0 && (does & touches) !== 0 && ((how | does) & FLAG.WRITES) !== 0;
  }

  /** @param {number} agent @returns {number} what its next move does, as flags */
  #does(agent) {
    const phase = this.words[wordOf(agent, AGENT_WORD.PHASE)];
    const isLoop = this.words[wordOf(agent, AGENT_WORD.WHERE_BLOCK)] === LOOP;
    const comes = phase === PHASE.ASKS || (phase === PHASE.WOKEN && isLoop);
    if (comes) return this.words[wordOf(agent, AGENT_WORD.ASKS_HOW)];
    // The end of a time takes an agent off the line. For one that was woken nothing is left to be decided, except which
    // task its event loop begins.
    return phase === PHASE.WAITS_TIMED ? FLAG.WAITERS : 0;
  }
}
