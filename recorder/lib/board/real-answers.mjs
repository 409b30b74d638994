// Real answers: what sockets, pipes and child processes bring to a thread of a program. A thread that has nothing else
// to do, and waits for some, may move: it looks until one has come. Looking is no move and takes no time of the run. A
// thread that has looked in vain isn't offered again before something else has moved. If several wait and nothing else
// can move, each looks for a short while first. So none holds up another one whose answer is there. A thread that has a
// task may look before it begins it. Answers that come to a thread without a move of its own between them are one move.

import { AGENT_WORD, NOBODY, PHASE, WORD, wordOf } from "../memory/layout.mjs";

/** How long a look lasts in milliseconds: a short one while others can move, and a long one if nothing else can. */
const SHORT = 5;
const LONG = 500;

/** The same for what comes by itself, of a child process or as the answer to a request: it may take its time. */
const SHORT_BY_ITSELF = 50;
const LONG_BY_ITSELF = 5_000;

const NEVER = -1;

/**
 * Whether a row has an answer now: it has none; it has one that no agent moves on; or it has one that the agent moves
 * on.
 */
export const DUE = Object.freeze({ NOT: 0, PERHAPS: 1, SURELY: 2 });

export class RealAnswers {
  /**
   * @param {Int32Array} words of the board
   * @param {import("./deadlines.mjs").Deadlines} deadlines
   * @param {number} agents how many
   */
  constructor(words, deadlines, agents) {
    this.words = words;
    this.deadlines = deadlines;
    this.agents = agents;
  }

  /** @returns {boolean} whether the agent that was drawn is to look for real answers */
  get areLookedFor() {
    return this.words[WORD.LOOKS] === 1;
  }

  /** No agent waits for any. */
  begin() {
    const { words } = this;
    words[WORD.EXPECTS] = 0;
    words[WORD.SILENT] = 0;
    words[WORD.SILENT_SINCE] = NEVER;
    words[WORD.LOOKS_LONG] = 0;
    words[WORD.LOOKS] = 0;
    words[WORD.OFFERS] = 0;
    words[WORD.ANSWERED] = 0;
    words[WORD.MORE_ANSWERS] = 0;
  }

  /** Whether any agent waits for some. */
  get areExpected() {
    return this.words[WORD.EXPECTS] !== 0;
  }

  /** @param {number} agent whose event loop has nothing to do, and waits for some */
  expect(agent) {
    const { words } = this;
    words[WORD.EXPECTS] |= 1 << agent;
    // It has done something: other agents may get answers by that.
    if ((words[WORD.SILENT] & (1 << agent)) === 0) words[WORD.SILENT] = 0;
  }

  /** @param {number} agent whose event loop asks for the turn for a task, and may look before */
  offer(agent) {
    this.words[WORD.OFFERS] |= 1 << agent;
  }

  /** @param {number} agent that goes on */
  goesOn(agent) {
    const { words } = this;
    if ((words[WORD.EXPECTS] | words[WORD.SILENT] | words[WORD.OFFERS]) === 0) return;
    words[WORD.EXPECTS] &= ~(1 << agent);
    words[WORD.SILENT] &= ~(1 << agent);
    words[WORD.OFFERS] &= ~(1 << agent);
  }

  /** @param {number} agent that moves otherwise than by an answer */
  moved(agent) {
    if (this.words[WORD.ANSWERED] !== 0) this.words[WORD.ANSWERED] &= ~(1 << agent);
  }

  /** @param {number} agent to which one has come @returns {boolean} whether that is a move: its last one was none */
  came(agent) {
    const { words } = this;
    const isMove = (words[WORD.ANSWERED] & (1 << agent)) === 0;
    words[WORD.ANSWERED] |= 1 << agent;
    if (!isMove) words[WORD.MORE_ANSWERS] += 1;
    return isMove;
  }

  /** @param {number} agent whose answer is held back: others look before it comes all the same */
  holds(agent) {
    this.polledInVain(agent);
    this.words[WORD.LOOKS_LONG] = 0;
  }

  /** @param {number} agent that has looked in vain */
  polledInVain(agent) {
    const { words } = this;
    words[WORD.SILENT] |= 1 << agent;
    words[WORD.SILENT_SINCE] = words[WORD.MOVES];
  }

  /**
   * If nothing else can move, an agent that has looked in vain looks again if anything has moved since, or for longer.
   */
  renew() {
    const { words } = this;
    const hasMoved = words[WORD.SILENT_SINCE] !== words[WORD.MOVES];
    const areSilent = (words[WORD.EXPECTS] & ~words[WORD.SILENT]) === 0;
    if (!hasMoved && !(areSilent && words[WORD.LOOKS_LONG] === 0)) return;
    words[WORD.SILENT] = 0;
    words[WORD.LOOKS_LONG] = hasMoved && this.#areSeveral() ? 0 : 1;
  }

  /** @param {number} agent @returns {boolean} whether it may move by looking, and by nothing else now */
  mayCome(agent) {
    const { words, deadlines: { clock } } = this;
    if ((words[WORD.EXPECTS] & ~words[WORD.SILENT] & (1 << agent)) === 0) return false;
    const phase = words[wordOf(agent, AGENT_WORD.PHASE)];
    return phase === PHASE.WAITS || (phase === PHASE.WAITS_TIMED && !clock.hasPassed(agent));
  }

  /** @param {number} agent @returns {boolean} whether it has a task, and may look before */
  mayComeBefore(agent) {
    const { words } = this;
    if ((words[WORD.OFFERS] & ~words[WORD.SILENT] & (1 << agent)) === 0) return false;
    return words[wordOf(agent, AGENT_WORD.PHASE)] === PHASE.ASKS;
  }

  /**
   * @param {number} [preferred] an agent that comes before the others
   * @returns {number} that one, or the first agent in number that may move so, or `NOBODY`
   */
  first(preferred = NOBODY) {
    if (!this.areExpected) return NOBODY;
    this.renew();
    if (preferred !== NOBODY && this.mayCome(preferred)) return preferred;
    for (let agent = 0; agent < this.agents; agent += 1) {
      if (this.mayCome(agent)) return agent;
    }
    return NOBODY;
  }

  /**
   * How long an agent looks that was drawn for it.
   * @param {number} agent
   * @param {boolean} byThemselves whether some come by themselves
   * @returns {number} milliseconds
   */
  patience(agent, byThemselves) {
    const { deadlines, deadlines: { clock } } = this;
    if ((this.words[WORD.OFFERS] & (1 << agent)) !== 0) return this.short(byThemselves);
    for (let other = 0; other < this.agents; other += 1) {
      if (other !== agent && deadlines.isReady(other) && !deadlines.spins.spins(other)) return this.short(byThemselves);
    }
    if (this.words[WORD.LOOKS_LONG] === 0) return this.short(byThemselves);
    const first = deadlines.first();
    if (first === NOBODY) return this.long(byThemselves);
    // Time passes no faster than it really does while something may come.
    return Math.max(1, Math.min(LONG, clock.deadline(first) - clock.now()));
  }

  /**
   * How long an agent looks in a run that goes by a row exactly.
   * @param {boolean} byThemselves as above
   * @param {number} due one of `DUE`
   * @returns {number} milliseconds
   */
  patienceByRow(byThemselves, due) {
    if (due === DUE.PERHAPS) return LONG;
    if (this.words[WORD.LOOKS_LONG] === 1 || !this.#areSeveral()) return this.long(byThemselves);
    return due === DUE.SURELY ? LONG : this.short(byThemselves);
  }

  /** @param {boolean} byThemselves @returns {number} how long an agent looks while something else can move */
  short(byThemselves) {
    return byThemselves ? SHORT_BY_ITSELF : SHORT;
  }

  /** @param {boolean} byThemselves @returns {number} how long it looks if nothing else can come */
  long(byThemselves) {
    return byThemselves ? LONG_BY_ITSELF : LONG;
  }

  /** @returns {boolean} whether more than one agent waits for some */
  #areSeveral() {
    const expects = this.words[WORD.EXPECTS];
    return (expects & (expects - 1)) !== 0;
  }
}
