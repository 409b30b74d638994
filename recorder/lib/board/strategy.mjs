// Who moves next, drawn from the seed's row among the agents that can. These ask for a call, were woken, or have a time
// that is over. Now and then the wait of one with a timeout ends early. If nothing else can move, or if all that can
// move only read the same again, the wait ends whose time is up first. A strategy says how it is drawn. A call that
// concerns no other agent is made without a draw.

import { AGENT_WORD, PHASE, WORD, wordOf } from "../memory/layout.mjs";
import { MOST_MOVES } from "./journal.mjs";
import { isRealAnswer, moverOf } from "./drawn-schedule.mjs";
import { Able } from "./strategy/able.mjs";
import { PendingAccesses } from "./strategy/pending-accesses.mjs";
import { Late } from "./strategy/late.mjs";
import { Slow } from "./strategy/slow.mjs";
import { Starts } from "./strategy/starts.mjs";
import { STRATEGIES } from "./strategy/strategies.mjs";
import { NEVER, PILOT_WAYS } from "./strategy/ways.mjs";

const { imul } = Math;

/**
 * @typedef {object} Rules what stays the same in all runs of a group
 * @property {number} agents how many
 * @property {readonly Way[]} ways how runs are drawn: a run by the one at its seed modulo how many there are
 * @property {number | "never"} timeouts in how many draws the end of a timed wait is offered while something else can
 * move; never: it isn't, even if nothing else can move
 * @property {number} maxMoves
 * @property {boolean} [inTurn] whether agents begin in turn under each seed
 * @property {number} [cutAfter] a run is cut when an agent has made so many calls, and goes on
 * @property {number} [early] of a program: a time may be up early only if nothing that can move lags by more than so
 * many milliseconds then. In some seeds such times are up as easily as anything else moves
 * @property {number} [starts] how many agents begin by themselves; others start the rest. If it isn't given, all begin
 */

/** @typedef {import("./strategy/ways.mjs").Way} Way */
/** @typedef {import("../memory/random.mjs").Random} Random */

/** What `next` returns if nobody moves any more. */
export const NOBODY_CAN_MOVE = -1;

// The draw is among all that can move: each call may concern other agents.
const NOBODY_GOES_ON = -2;

// What may differ in how a seed of a program is drawn: short times are up early, and an agent is slow now and then.
const HASTY = 1;
const SLOW = 2;

// Set beside HASTY, also if no time is up early: real answers come as easily as anything else moves.
const EAGER = 4;

// In one of eight seeds, whatever else is changed: waits and notifies are late.
const LATE = 8;

/** In how many of the draws of the other seeds real answers may come though something else can move. */
const EARLY_ANSWERS = 0.05;

/** In how many of the turns of an event loop they come before a task of its own, in the eager seeds. */
const EAGER_ANSWERS = 0.5;

/**
 * After so many early ends a run isn't hasty any more: else code that tries again when its time is up might never end.
 */
const MOST_HASTY = 20;

/**
 * Of eight seeds, two have neither, one has only the first, one only the second, and four have both, whatever their
 * strategies.
 */
const CHANGES = Object.freeze([0, 0, HASTY, SLOW, HASTY | SLOW, HASTY | SLOW, HASTY | SLOW, HASTY | SLOW]);

/** @param {number} seed @returns {number} what is changed, unless a single strategy or no early time is asked for */
const changesOf = (seed) => {
  const drawn = imul(seed, 0x9e3779b1) >>> 26;
  return CHANGES[drawn >>> 3] | ((drawn & 7) === 0 ? LATE : 0);
};

// A pilot that is long shows little more.
const MOST_PILOT_MOVES = 10_000;

export class Strategy {
  /**
   * @param {Int32Array} words of the board
   * @param {Rules} rules
   * @param {Random} random
   * @param {import("../memory/known-places.mjs").KnownPlaces} places
   * @param {import("./drawn-schedule.mjs").DrawnSchedule} row
   * @param {import("./deadlines.mjs").Deadlines} deadlines
   * @param {import("./real-answers.mjs").RealAnswers} answers
   */
  constructor(words, rules, random, places, row, deadlines, answers) {
    this.words = words;
    this.rules = rules;
    this.starts = new Starts(words, rules, () => deadlines.clock.seed());
    /** In how many draws a time may be up early. */
    this.share = rules.timeouts === NEVER || rules.early === 0 ? 0 : rules.timeouts;
    this.random = random;
    this.row = row;
    this.deadlines = deadlines;
    this.answers = answers;
    this.able = new Able(rules.agents);
    this.asked = new PendingAccesses(words, places);
    this.slow = new Slow(words, random);
    this.late = new Late(words, random, this.asked, rules.agents);
    this.ways = this.#made(rules.ways);
    this.pilotWays = this.#made(PILOT_WAYS);
  }

  /** @param {number} seed @param {boolean} [isPilot] */
  begin(seed, isPilot = false) {
    const { words } = this;
    words[WORD.LAST] = NOBODY_CAN_MOVE;
    words[WORD.IS_PILOT] = isPilot ? 1 : 0;
    this.starts.begin();
    words[WORD.STRATEGY] = seed % (isPilot ? this.pilotWays : this.ways).length;
    const all = (this.share > 0 ? HASTY : 0) | (this.ways.length > 1 ? SLOW | (isPilot ? 0 : LATE) : 0);
    const changes = this.rules.early === undefined ? 0 : changesOf(seed);
    words[WORD.CHANGES] = (changes & all) | ((changes & HASTY) === 0 ? 0 : EAGER);
    this.slow.begin();
    this.late.begin();
    this.random.seed(seed);
    this.#way().drawing.begin();
    for (let agent = 0; agent < this.rules.agents; agent += 1) this.asked.begin(agent);
  }

  /** Whether short times are as likely to be up as anything else is to move. */
  get isHasty() {
    return (this.words[WORD.CHANGES] & HASTY) !== 0 && this.words[WORD.EARLY] < MOST_HASTY;
  }

  /** Whether real answers come as easily as anything else moves. */
  get isEager() {
    return (this.words[WORD.CHANGES] & EAGER) !== 0;
  }

  /**
   * An agent asks for a call: it is known what it will touch before it is drawn.
   * @param {number} agent
   * @param {number} from the first place
   * @param {number} to the place behind the last one; if the call touches nothing, both are 0
   * @param {number} how the call's flags, as in the log
   * @param {number} [known] the number of the first place as pilots know it
   */
  asks(agent, from, to, how, known = from) {
    this.asked.note(agent, from, to, how, known, this.#way().everywhere);
    if (this.#isLate) this.late.asks(agent, from, to, how);
  }

  /**
   * @returns {number} an agent that begins now, or `NOBODY_CAN_MOVE`: one that is due, that is to move next by the row,
   * or any if nobody else can go on
   */
  nextToStart() {
    const { row, starts } = this;
    if (starts.areAll) return NOBODY_CAN_MOVE;
    const wanted = row.isForced() ? row.wanted() : NOBODY_CAN_MOVE;
    const isWanted = wanted !== NOBODY_CAN_MOVE && !starts.hasBegun(wanted);
    return isWanted || starts.isDue || !this.#canGoOn() ? starts.next() : NOBODY_CAN_MOVE;
  }

  /** @returns {boolean} whether an agent that has begun can go on by itself, and does more than read the same again */
  #canGoOn() {
    const { deadlines, rules: { agents } } = this;
    for (let agent = 0; agent < agents; agent += 1) {
      if (deadlines.isReady(agent) && !deadlines.spins.spins(agent)) return true;
    }
    return false;
  }

  /** @returns {number} who moves next; `NOBODY_CAN_MOVE` if nobody can, `STRAYS` if a row can't be followed */
  next() {
    const { row, words } = this;
    const next = row.isForced() ? row.next() : this.#drawn();
    if (next < 0) return next;
    const agent = moverOf(next);
    // A real answer is noted when it has come.
    const looks = isRealAnswer(next) || (!row.isForced() && this.#looks(next));
    words[WORD.LOOKS] = looks ? 1 : 0;
    if (!looks) this.moves(agent, next);
    return agent;
  }

  /** @param {number} agent that moves next @param {number} drawn as the row has it */
  moves(agent, drawn) {
    this.row.note(drawn);
    this.words[WORD.LAST] = agent;
    if (!isRealAnswer(drawn)) this.answers.moved(agent);
  }

  /** @returns {boolean} whether there are moves left for whatever is done next */
  hasMoves() {
    const { words } = this;
    const { maxMoves } = this.rules;
    const most = words[WORD.IS_PILOT] === 1 && maxMoves > MOST_PILOT_MOVES ? MOST_PILOT_MOVES : maxMoves;
    return words[WORD.MOVES] + words[WORD.MORE_ANSWERS] + MOST_MOVES <= most;
  }

  /** @returns {number} who moves next by the seed, or `NOBODY_CAN_MOVE` */
  #drawn() {
    const { able } = this;
    const last = this.words[WORD.LAST];
    if (last >= 0 && this.#goesOn(last)) return last;
    const sure = this.#gather();
    if (sure !== NOBODY_GOES_ON) return sure;
    if (able.count === 0) return NOBODY_CAN_MOVE;
    if (this.#isLate) this.late.hold(able);
    if ((this.words[WORD.CHANGES] & SLOW) !== 0) this.slow.hold(able);
    const next = this.#way().drawing.drawn(able, last);
    if (this.#isLate) this.late.moves(next);
    return next;
  }

  /** Whether waits and notifies are late; a run that goes by a row has no draws. */
  get #isLate() {
    return (this.words[WORD.CHANGES] & LATE) !== 0 && !this.row.isForced();
  }

  /** @param {number} agent that was drawn by the seed @returns {boolean} whether it looks for real answers */
  #looks(agent) {
    const { answers } = this;
    if (answers.areExpected && answers.mayCome(agent)) return true;
    if (!answers.mayComeBefore(agent)) return false;
    return this.random.fraction() < (this.isEager ? EAGER_ANSWERS : EARLY_ANSWERS);
  }

  #way() {
    const ways = this.words[WORD.IS_PILOT] === 1 ? this.pilotWays : this.ways;
    return ways[this.words[WORD.STRATEGY]];
  }

  /**
   * @param {readonly Way[]} ways
   * @returns {{ drawing: import("./strategy/drawing.mjs").Drawing, everywhere: boolean }[]}
   */
  #made(ways) {
    const { words, random, asked, rules: { agents } } = this;
    const made = [];
    for (let at = 0; at < ways.length; at += 1) {
      const { name, likelihood, everywhere } = ways[at];
      made[at] = { drawing: new STRATEGIES[name].Kind({ words, random, asked, agents }, likelihood), everywhere };
    }
    return made;
  }

  /** @param {number} agent */
  #goesOn(agent) {
    return this.words[wordOf(agent, AGENT_WORD.PHASE)] === PHASE.ASKS && this.asked.goesOn(agent);
  }

  /**
   * Gathers the agents that can move. Here it is decided when the time of a wait may be up.
   * @returns {number} one of them whose call concerns no other agent, or `NOBODY_GOES_ON`
   */
  #gather() {
    const { able } = this;
    able.clear();
    let timed = 0;
    for (let agent = 0; agent < this.rules.agents; agent += 1) {
      const phase = this.words[wordOf(agent, AGENT_WORD.PHASE)];
      if (phase === PHASE.WAITS_TIMED) timed += 1;
      if (phase !== PHASE.ASKS && phase !== PHASE.WOKEN) continue;
      able.add(agent);
      if (this.#goesOn(agent)) return agent;
    }
    if (this.answers.areExpected && this.#offerAnswers()) return NOBODY_GOES_ON;
    if (timed > 0) this.#offerTimes(timed);
    return NOBODY_GOES_ON;
  }

  /**
   * Adds agents to which real answers may come: always if nothing else goes on, and else in some draws.
   * @returns {boolean} whether they come before the time of any wait is up
   */
  #offerAnswers() {
    const { able, answers } = this;
    const isMoving = this.#isMoving();
    if (isMoving && !this.isEager && this.random.fraction() >= EARLY_ANSWERS) return false;
    if (!isMoving) answers.renew();
    const before = able.count;
    for (let agent = 0; agent < this.rules.agents; agent += 1) if (answers.mayCome(agent)) able.add(agent);
    return !isMoving && able.count > before;
  }

  /**
   * Adds waits whose time may be up to those that can move: what is due, and what may end early. If nothing else goes
   * on, the wait whose time is up first is all there is.
   * @param {number} timed how many waits have a time
   */
  #offerTimes(timed) {
    const { able, deadlines } = this;
    if (this.#addTimed(true) === timed) return;
    if (!this.#isMoving()) {
      able.clear();
      able.add(deadlines.first());
    } else if (this.isHasty || this.random.fraction() < this.share) this.#addTimed(false);
  }

  /**
   * @param {boolean} isDue whether those are added that are due, or those that may end early
   * @returns {number} how many they are
   */
  #addTimed(isDue) {
    const { able, deadlines } = this;
    const before = able.count;
    for (let agent = 0; agent < this.rules.agents; agent += 1) {
      if (!deadlines.isTimed(agent) || able.place(agent) >= 0) continue;
      if (deadlines.clock.isDue(agent) === isDue && (isDue || deadlines.mayEndEarly(agent))) able.add(agent);
    }
    return able.count - before;
  }

  /** @returns {boolean} whether an agent can move that does more than read the same again */
  #isMoving() {
    const { able, deadlines: { spins } } = this;
    for (let at = 0; at < able.count; at += 1) {
      if (!spins.spins(able.agents[at])) return true;
    }
    return false;
  }
}
