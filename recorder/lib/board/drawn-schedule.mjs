// The schedule of a run as it was drawn, its row: which agent moved with each draw. It is returned on request. A run
// can be forced to go by a row: then the seed draws nothing, and only clocks and random numbers come from it.
//
// Exactly: the run ends when it diverges from the row. It diverges if the row names an agent that can't move, or ends
// while an agent can. It also diverges if an agent makes another call than it is to make. Leniently: what can't move is
// left out. Behind the row's end the agent that moved last goes on as long as it can, then the next one in number. If
// all agents that can move only read the same again, the wait goes on whose time is up first.
//
// A row has each real answer. When the run is made again, they may come in other pieces. So only the answer matters
// after which an agent makes its next move. Before a run diverges, agents look for answers: only an agent that looks
// sees what has closed, and no row has that.
//
// All of it is in shared memory. Only the thread that has the turn changes it, like the words of the board.

import { SCRIPT_LIMITS } from "../../script/limits.mjs";
import { AGENT_WORD, NOBODY, PHASE, wordOf } from "../memory/layout.mjs";
import { placedCallText } from "../memory/spelling.mjs";
import { positionIn, uncurried } from "../primordials.mjs";
import { DUE } from "./real-answers.mjs";

// Agents may change what they find, so the engine's own functions are kept here, before.
const { Int32Array, Uint8Array, SharedArrayBuffer } = globalThis;
const { imul } = Math;
const codeAt = uncurried(String.prototype.charCodeAt);

/** What `next` returns if the run diverges from its row. */
export const DIVERGES = -2;

/** Is added to an agent's number in a row if its move is that a real answer has come to it. */
export const REAL_ANSWER = SCRIPT_LIMITS.agents;

/** @param {number} drawn as a row has it @returns {number} the agent that moves */
export const moverOf = (drawn) => (drawn < REAL_ANSWER ? drawn : drawn - REAL_ANSWER);

/** @param {number} drawn as a row has it @returns {boolean} whether a real answer comes */
export const isRealAnswer = (drawn) => drawn >= REAL_ANSWER;

// A draw makes two moves at least; and one may be the last thing that is done.
export const MOST_DRAWS = SCRIPT_LIMITS.moves / 2 + 1;

// Behind the row's end another agent that can move gets its turn after so many draws of one agent, since that one may
// spin.
const MOST_ALIKE = 200;

// The words of the row's state.
const HOW = 0;
const LENGTH = 1;
const AT = 2;
const WANTS = 3;
const DRAWN = 4;
const LAST = 5;
const ALIKE = 6;
const KNOWS_CALLS = 7;
const DIVERGENCE = 8;
const DIVERGENCE_AGENT = 9;
const DIVERGENCE_ABLE = 10;
const LAST_DRAWN = 11;
const IS_DUE = 12;
const STATE_WORDS = 13;

// The word HOW.
const FREE = 0;
const LENIENT = 1;
const EXACT = 2;

// In place of a call's number: the agent goes on from a wait.
const NO_CALL = 0;

/**
 * @typedef {"call" | "leaves" | "waits" | "ended" | "goes on" | "comes" | "choice"} DivergenceReason how a run has
 * diverged
 */

/** @type {readonly DivergenceReason[]} the word DIVERGENCE is a position here, from 1 on; 0: none */
const REASONS = Object.freeze(["call", "leaves", "waits", "ended", "goes on", "comes", "choice"]);

/**
 * @typedef {object} Divergence how a run that was forced exactly has diverged from its row
 * @property {DivergenceReason} reason the agent makes another call; or it leaves a wait and is to make a call; or it is
 * to move, and waits or has ended; or the row has ended, and the agent goes on; or the agent gets a real answer, and
 * the row has none there; or the agent asks for another choice than is given
 * @property {number} agent
 * @property {number} draw how many draws had been made by the row
 * @property {number} [wanted] what the row has as the next draw, if it has one
 * @property {number[]} able the agents that could move
 */

/**
 * @typedef {object} WantedSchedule
 * @property {number[]} [row] the agents in the order in which they are to be drawn; else the seed draws
 * @property {boolean} [isExact] whether the run ends if it diverges from the row
 * @property {Int32Array} [calls] for each draw the number of the call (see `callNumber`) that the agent is to make; 0
 * if it is to go on from a wait
 * @property {boolean} [wantsRow] whether the run's own row is wanted
 */

/**
 * @typedef {object} DrawnScheduleMemory
 * @property {SharedArrayBuffer} state
 * @property {SharedArrayBuffer} forced
 * @property {SharedArrayBuffer} drawn
 * @property {SharedArrayBuffer} calls
 */

/**
 * A number of a call by its text: others hardly ever have the same.
 * @param {string} text of the call, whose view is spelled by its key
 * @returns {number} not 0
 */
export function callNumber(text) {
  let number = 0x811c9dc5;
  for (let at = 0; at < text.length; at += 1) number = imul(number ^ codeAt(text, at), 0x01000193);
  return number === NO_CALL ? 1 : number;
}

export class DrawnSchedule {
  /** @returns {DrawnScheduleMemory} */
  static memory() {
    return {
      state: new SharedArrayBuffer(STATE_WORDS * 4),
      forced: new SharedArrayBuffer(MOST_DRAWS),
      drawn: new SharedArrayBuffer(MOST_DRAWS),
      calls: new SharedArrayBuffer(MOST_DRAWS * 4),
    };
  }

  /**
   * @param {DrawnScheduleMemory} memory
   * @param {import("./deadlines.mjs").Deadlines} deadlines
   * @param {import("./real-answers.mjs").RealAnswers} answers
   * @param {Int32Array} words of the board
   * @param {number} agents how many
   */
  constructor(memory, deadlines, answers, words, agents) {
    this.deadlines = deadlines;
    this.answers = answers;
    this.state = new Int32Array(memory.state);
    this.forced = new Uint8Array(memory.forced);
    this.drawn = new Uint8Array(memory.drawn);
    this.calls = new Int32Array(memory.calls);
    this.words = words;
    this.agents = agents;
  }

  // The referee's part.

  /**
   * A run begins. No agent may be busy.
   * @param {WantedSchedule} wanted
   */
  begin({ row, isExact = false, calls, wantsRow = false }) {
    const { state } = this;
    state.fill(0);
    state[LAST] = NOBODY;
    state[WANTS] = wantsRow ? 1 : 0;
    if (row === undefined) return;
    state[HOW] = isExact ? EXACT : LENIENT;
    state[LENGTH] = row.length;
    this.forced.set(row);
    if (calls === undefined) return;
    state[KNOWS_CALLS] = 1;
    this.calls.set(calls);
  }

  /** @returns {number[] | undefined} the run's own row, if it is wanted */
  own() {
    return this.state[WANTS] === 0 ? undefined : Array.from(this.drawn.subarray(0, this.state[DRAWN]));
  }

  /** @returns {Divergence | undefined} */
  diverged() {
    const { state } = this;
    if (state[DIVERGENCE] === 0) return undefined;
    const draw = state[AT];
    const everyone = Array.from({ length: this.agents }, (_, agent) => agent);
    const able = everyone.filter((agent) => state[DIVERGENCE_ABLE] & (1 << agent));
    const divergence = { reason: REASONS[state[DIVERGENCE] - 1], agent: state[DIVERGENCE_AGENT], draw, able };
    return draw < state[LENGTH] ? { ...divergence, wanted: this.forced[draw] } : divergence;
  }

  // The part of the agent that has the turn.

  /** @returns {boolean} whether the run goes by a row */
  isForced() {
    return this.state[HOW] !== FREE;
  }

  /** @returns {number} who moves next by the row; `NOBODY` if nobody can; or `DIVERGES` */
  next() {
    const { state } = this;
    state[IS_DUE] = DUE.NOT;
    while (state[AT] < state[LENGTH]) {
      const drawn = this.forced[state[AT]];
      if (this.#canBeDrawn(drawn)) return this.#taken(drawn);
      const isExpected = state[HOW] === EXACT && (!isRealAnswer(drawn) || this.#isNeeded(state[AT]));
      if (isExpected) return this.#missing(drawn);
      state[AT] += 1;
    }
    return state[HOW] === EXACT ? this.#exactlyBehind() : this.#behind();
  }

  /** @returns {number} who is to move next by the row, or `NOBODY` if it has come to its end */
  wanted() {
    return this.state[AT] < this.state[LENGTH] ? moverOf(this.forced[this.state[AT]]) : NOBODY;
  }

  /**
   * Takes note of a draw.
   * @param {number} drawn who moves next, and whether that is a real answer
   */
  note(drawn) {
    const { state } = this;
    if (state[HOW] === FREE && state[WANTS] === 0) return;
    const agent = moverOf(drawn);
    state[ALIKE] = agent === state[LAST] ? state[ALIKE] + 1 : 1;
    state[LAST] = agent;
    state[LAST_DRAWN] = drawn;
    if (state[WANTS] === 0) return;
    this.drawn[state[DRAWN]] = drawn;
    state[DRAWN] += 1;
  }

  /** How many draws were made, if the run's own row is wanted. */
  get draws() {
    return this.state[DRAWN];
  }

  /** @param {number} agent that asks for another choice than is given */
  differsByChoice(agent) {
    this.#diverge("choice", agent);
  }

  /** @returns {boolean} whether the run ends if it diverges from its row */
  get isExact() {
    return this.state[HOW] === EXACT;
  }

  /** @param {number} agent @returns {boolean} whether the row lets it get a real answer now; without a row it may */
  isDue(agent) {
    return this.state[HOW] !== EXACT || this.due !== DUE.NOT || this.#hasNext(agent + REAL_ANSWER);
  }

  /** One of `DUE`, about the agent that was drawn. */
  get due() {
    return this.state[IS_DUE];
  }

  /**
   * An agent gets a real answer. If the row has one there, the row goes on.
   * @param {number} agent
   * @returns {boolean} false: the run diverges by it
   */
  admits(agent) {
    const { state } = this;
    const drawn = agent + REAL_ANSWER;
    const isDue = this.due !== DUE.NOT;
    state[IS_DUE] = DUE.NOT;
    if (isDue || state[HOW] === FREE) return true;
    if (this.#hasNext(drawn)) {
      state[AT] += 1;
      return true;
    }
    if (state[HOW] !== EXACT || state[LAST_DRAWN] === drawn || !this.#movesItself(agent, state[AT])) return true;
    this.#diverge("comes", agent);
    return false;
  }

  /** An agent that was drawn for a real answer has seen that something has closed, and is drawn for it once more. */
  takesBack() {
    if (this.due !== DUE.NOT) this.state[AT] -= 1;
    this.state[IS_DUE] = DUE.NOT;
  }

  /** No real answer came to an agent that was drawn for one. */
  misses() {
    if (this.state[HOW] === EXACT) this.takesBack();
  }

  /**
   * Whether an agent that was drawn does what it is to do; if that isn't known, all is right.
   * @param {number} agent
   * @param {import("../memory/records.mjs").Call} [call] that it makes; without, it goes on from a wait
   */
  allows(agent, call) {
    const { state } = this;
    if (state[KNOWS_CALLS] === 0) return true;
    const number = call === undefined ? NO_CALL : callNumber(placedCallText(call, call));
    if (this.calls[state[AT] - 1] === number) return true;
    // That draw isn't one by the row.
    state[AT] -= 1;
    this.#diverge(call === undefined ? "leaves" : "call", agent);
    return false;
  }

  /** What comes behind the end of an exact row. */
  #exactlyBehind() {
    const other = this.#able();
    return other === NOBODY || isRealAnswer(other) ? other : this.#diverge("goes on", other);
  }

  /**
   * @param {number} drawn what the row has as the next draw, and can't be now
   * @returns {number} the agent that looks, or `DIVERGES`
   */
  #missing(drawn) {
    const agent = moverOf(drawn);
    const looks = this.answers.first(agent);
    if (looks === NOBODY) return this.#diverge(this.#phase(agent) === PHASE.FINISHED ? "ended" : "waits", agent);
    return looks + REAL_ANSWER === drawn ? this.#taken(drawn) : looks + REAL_ANSWER;
  }

  /** @param {number} drawn what the row has as the next draw @returns {number} the same: the row goes on */
  #taken(drawn) {
    const { state } = this;
    if (isRealAnswer(drawn)) state[IS_DUE] = this.#isNeeded(state[AT]) ? DUE.SURELY : DUE.PERHAPS;
    state[AT] += 1;
    return drawn;
  }

  /** @param {number} drawn @returns {boolean} whether the row has that as the next draw */
  #hasNext(drawn) {
    return this.state[AT] < this.state[LENGTH] && this.forced[this.state[AT]] === drawn;
  }

  /** @param {number} at where the row has an answer @returns {boolean} whether its agent moves on just this one */
  #isNeeded(at) {
    const drawn = this.forced[at];
    return drawn !== this.state[LAST_DRAWN] && this.#movesItself(moverOf(drawn), at + 1);
  }

  /**
   * @param {number} agent
   * @param {number} from where in the row
   * @returns {boolean} whether its next move from there on is none by an answer
   */
  #movesItself(agent, from) {
    for (let at = from; at < this.state[LENGTH]; at += 1) {
      if (moverOf(this.forced[at]) === agent) return !isRealAnswer(this.forced[at]);
    }
    return false;
  }

  /** What comes behind the end of another row. */
  #behind() {
    const { state } = this;
    const last = state[LAST];
    if (last !== NOBODY && state[ALIKE] < MOST_ALIKE && this.#isMoving(last)) return last;
    return this.#able();
  }

  /**
   * The next agent in number that can move, after the one that moved last. After all others comes the wait whose time
   * is up first, and after that an agent that only reads the same again.
   */
  #able() {
    const first = this.state[LAST] + 1;
    let spinning = NOBODY;
    for (let step = 0; step < this.agents; step += 1) {
      const agent = (first + step) % this.agents;
      if (this.#isMoving(agent)) return agent;
      if (spinning === NOBODY && this.deadlines.isReady(agent)) spinning = agent;
    }
    const looks = this.answers.first();
    if (looks !== NOBODY) return looks + REAL_ANSWER;
    const timed = this.deadlines.first();
    return timed === NOBODY ? spinning : timed;
  }

  /** @param {number} agent */
  #phase(agent) {
    return this.words[wordOf(agent, AGENT_WORD.PHASE)];
  }

  /** @param {number} drawn @returns {boolean} whether there is this move: also the end of a wait's time */
  #canBeDrawn(drawn) {
    const agent = moverOf(drawn);
    if (isRealAnswer(drawn)) return this.answers.mayCome(agent) || this.answers.mayComeBefore(agent);
    if (this.deadlines.isReady(agent)) return true;
    return this.deadlines.isTimed(agent) && (this.isExact || this.deadlines.mayEndEarly(agent));
  }

  /** @param {number} agent @returns {boolean} whether it can move by itself, and does something new */
  #isMoving(agent) {
    return this.deadlines.isReady(agent) && !this.deadlines.spins.spins(agent);
  }

  /** @param {DivergenceReason} reason @param {number} agent */
  #diverge(reason, agent) {
    this.state[DIVERGENCE] = positionIn(REASONS, reason) + 1;
    this.state[DIVERGENCE_AGENT] = agent;
    for (let other = 0; other < this.agents; other += 1) {
      if (this.deadlines.isReady(other)) this.state[DIVERGENCE_ABLE] |= 1 << other;
    }
    return DIVERGES;
  }
}
