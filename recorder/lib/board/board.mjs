// The board of a run, in memory that all threads share. It has whose turn it is, what each agent is at, who waits
// where, the row of random numbers, the time, what was done, and how the run ended. Only the thread that has the turn
// changes it.

import { SCRIPT_LIMITS } from "../../script/limits.mjs";
import { loopPlace } from "../memory/blocks.mjs";
import { KnownPlaces } from "../memory/known-places.mjs";
import { LOOP, ORDER, PHASE, WORD, wordsFor } from "../memory/layout.mjs";
import { FLAG, Log } from "../memory/log.mjs";
import { NamedPlaces } from "../memory/named-places.mjs";
import { NotedPlaces } from "../memory/noted-places.mjs";
import { Random } from "../memory/random.mjs";
import { Stores } from "../memory/stores.mjs";
import { RealAnswers } from "./real-answers.mjs";
import { AsyncWaiters } from "./async-waiters.mjs";
import { Clock } from "./clock.mjs";
import { Deadlines } from "./deadlines.mjs";
import { End } from "./end.mjs";
import { Journal, MOST_MOVES, MOVES } from "./journal.mjs";
import { Lags } from "./lags.mjs";
import { WaiterLine } from "./line.mjs";
import { DIVERGES, DrawnSchedule, REAL_ANSWER } from "./drawn-schedule.mjs";
import { ReadyThreads } from "./ready-threads.mjs";
import { RunMode } from "./run-mode.mjs";
import { Spins } from "./spins.mjs";
import { NOBODY_CAN_MOVE, Strategy } from "./strategy.mjs";
import { NEVER } from "./strategy/ways.mjs";
import { REASON_BYTES, Turn } from "./turn.mjs";
import { Vain } from "./vain.mjs";

const { Int32Array, Float64Array } = globalThis;
const { load, store } = Atomics;
const bufferFrom = Buffer.from;

const TEXT_BYTES = 16_384;

/**
 * @typedef {object} BoardMemory
 * @property {SharedArrayBuffer} words
 * @property {SharedArrayBuffer} views
 * @property {SharedArrayBuffer} text
 * @property {SharedArrayBuffer} reasons
 * @property {SharedArrayBuffer} times
 * @property {SharedArrayBuffer} early
 * @property {SharedArrayBuffer} lags
 * @property {SharedArrayBuffer} vain
 * @property {SharedArrayBuffer} places
 * @property {SharedArrayBuffer} noted
 * @property {import("./drawn-schedule.mjs").DrawnScheduleMemory} row
 * @property {SharedArrayBuffer} [waiters] of a program: for the waits of Atomics.waitAsync
 * @property {SharedArrayBuffer} [names] of a program: the names by which pilots know its memory
 */

export class Board {
  /** @returns {BoardMemory} */
  static memory() {
    const { agents, views } = SCRIPT_LIMITS;
    // Besides the agents there may be a worker that calls `init` and `check`.
    const workers = agents + 1;
    return {
      words: new SharedArrayBuffer(wordsFor(workers) * 4),
      views: new SharedArrayBuffer(views * 8),
      text: new SharedArrayBuffer(TEXT_BYTES),
      reasons: new SharedArrayBuffer(workers * REASON_BYTES),
      times: Clock.memory(agents),
      early: Deadlines.memory(),
      lags: Lags.memory(agents),
      vain: Vain.memory(agents),
      places: KnownPlaces.memory(),
      noted: NotedPlaces.memory(),
      row: DrawnSchedule.memory(),
    };
  }

  /** @param {BoardMemory} memory @param {import("./strategy.mjs").Rules} rules */
  constructor(memory, rules) {
    const { agents } = rules;
    this.rules = rules;
    this.words = new Int32Array(memory.words);
    this.mode = new RunMode(this.words);
    this.ready = new ReadyThreads(this.words);
    this.end = new End(this.words, bufferFrom(memory.text));
    this.turn = new Turn(this.words, bufferFrom(memory.reasons), this.end, agents);
    this.waiters = memory.waiters === undefined ? undefined : new AsyncWaiters(memory.waiters);
    this.clock = new Clock(memory.times);
    this.spins = new Spins(this.words, agents);
    const hasLoops = rules.early !== undefined;
    const lags = hasLoops ? new Lags(memory.lags, this.words, this.clock, this.spins, rules) : undefined;
    this.line = new WaiterLine(this.words, agents, this.waiters, lags);
    this.journal = new Journal(this.words, new Float64Array(memory.views), agents);
    const { places, names } = memory;
    this.noted = new NotedPlaces(memory.noted);
    this.places = names === undefined ? new KnownPlaces(places) : new NamedPlaces(places, names);
    this.deadlines = new Deadlines(memory.early, this.words, this.clock, this.spins, agents, lags);
    this.vain = hasLoops ? new Vain(memory.vain, this.words, agents) : undefined;
    this.answers = new RealAnswers(this.words, this.deadlines, agents);
    this.row = new DrawnSchedule(memory.row, this.deadlines, this.answers, this.words, agents);
    const random = new Random(new Int32Array(memory.words, WORD.RANDOM * 4, 4));
    this.strategy = new Strategy(this.words, rules, random, this.places, this.row, this.deadlines, this.answers);
  }

  /**
   * Begins a run. No agent may be busy.
   * @param {number} seed
   * @param {boolean} [isPilot] whether it is made to learn from alone
   */
  begin(seed, isPilot = false) {
    this.#prepare(ORDER.PLAY);
    this.line.begin(this.rules.starts);
    this.waiters?.begin();
    this.words[WORD.JOINED] = this.rules.starts ?? this.rules.agents;
    this.words[WORD.MAY_REST] = 0;
    this.journal.begin();
    this.clock.begin(seed);
    this.deadlines.begin();
    this.answers.begin();
    this.vain?.begin();
    this.strategy.begin(seed, isPilot);
    this.turn.start(this.strategy.nextToStart());
  }

  /** @param {ArrayBufferLike} memory @returns {Log} of the run: the board's words have its length */
  logIn(memory) {
    return new Log(memory, this.words, WORD.EVENTS);
  }

  /**
   * @param {ReturnType<typeof Stores.memory>} memory
   * @param {import("../memory/recorded-memory.mjs").RecordedMemory} buffers
   * @returns {Stores} of the run: the board's words have their number
   */
  storesIn(memory, buffers) {
    return new Stores(memory, this.words, buffers);
  }

  /** @returns {number} the number of the run, or of what a worker was ordered to do else */
  get run() {
    return this.words[WORD.RUN];
  }

  /** @returns {number} how many threads of a program have joined the run */
  get joined() {
    return this.words[WORD.JOINED];
  }

  /** The run of a program is well if nothing can move any more. */
  allowRest() {
    this.words[WORD.MAY_REST] = 1;
  }

  /**
   * Orders a worker to do something else than an agent's part in a run. No agent may be busy.
   * @param {number} order one of `ORDER`
   * @param {number} worker its agent's number, or the one behind the agents'
   */
  order(order, worker) {
    this.#prepare(order);
    this.turn.start(worker);
  }

  /** Cancels the agents that ask or wait in a run that has ended. */
  cancelAll() {
    this.end.cancelAll();
    for (let agent = 0; agent < this.rules.agents; agent += 1) {
      const phase = this.line.phase(agent);
      if (phase !== PHASE.RUNS && phase !== PHASE.FINISHED) this.turn.cancel(agent);
    }
  }

  /** @param {number} agent @returns {boolean} whether its part is over: the run is, or another thread has ended it */
  isOverFor(agent) {
    return this.end.isOver() || this.line.phase(agent) === PHASE.FINISHED;
  }

  /** @returns {number} one of `ORDER`: what agents are started for */
  ordered() {
    return load(this.words, WORD.ORDER);
  }

  /**
   * Picks who moves next, and hands the turn over. If nobody can move, the run ends.
   * @param {number} agent that has the turn
   * @returns {boolean} whether it moves next itself
   */
  pass(agent) {
    const { answers, strategy, turn, end, line, rules } = this;
    const first = strategy.nextToStart();
    if (first !== NOBODY_CAN_MOVE) {
      turn.start(first);
      return false;
    }
    if (!strategy.hasMoves() && this.#anyAgent((each) => line.canMove(each) || answers.mayCome(each))) {
      end.end("limit", `more than ${rules.maxMoves} moves would be made`);
      return false;
    }
    if (this.vain?.isAll() && !answers.areExpected) {
      end.end(this.#standstill(), "");
      return false;
    }
    const next = strategy.next();
    if (next === DIVERGES) end.end("failed", "");
    else if (next === NOBODY_CAN_MOVE) end.end(this.#standstill(), "");
    else if (next !== agent) turn.give(next);
    return next === agent;
  }

  /**
   * An agent that has the turn joins the line of waiters.
   * @param {number} agent
   * @param {number} block
   * @param {number} byte
   * @param {number | undefined} milliseconds its timeout, if it has one; one that is 0 or less ends whatever `timeouts`
   * says, since nobody waits by it
   */
  wait(agent, block, byte, milliseconds) {
    const isTimed = milliseconds !== undefined && !(this.rules.timeouts === NEVER && milliseconds > 0);
    this.line.join(agent, block, byte, isTimed);
    if (isTimed) this.clock.setDeadline(agent, milliseconds);
  }

  /**
   * Counts what was done, and lets its time pass.
   * @param {number} agent
   * @param {number} event
   */
  did(agent, event) {
    this.journal.count(agent, event);
    this.clock.advance(MOVES[event]);
  }

  /**
   * A thread of a program joins the run: it can be drawn from now on.
   * @param {number} agent
   */
  join(agent) {
    this.words[WORD.JOINED] += 1;
    this.strategy.asks(agent, 0, 0, 0);
    this.deadlines.lags?.wakes(agent);
    this.vain?.news();
    this.line.become(agent, PHASE.ASKS);
    this.turn.call(agent);
  }

  /**
   * The event loop of an agent has nothing to do: it waits for what others send.
   * @param {number} agent that has the turn
   * @param {number} where `LOOP`, or `NOWHERE` if nobody can wake it
   * @param {number | undefined} milliseconds until it goes on by itself
   */
  rest(agent, where, milliseconds) {
    if (where === LOOP) this.asksForTask(agent);
    else this.strategy.asks(agent, 0, 0, 0);
    this.line.join(agent, where, agent, milliseconds !== undefined);
    if (milliseconds !== undefined) this.clock.setDeadline(agent, milliseconds);
  }

  /** @param {number} agent whose next move is one of its event loop, or receives a message from a port */
  asksForTask(agent) {
    const place = loopPlace(agent);
    this.strategy.asks(agent, place, place + 1, FLAG.WAITERS);
  }

  /** An agent's event loop begins something: that is a move, though none of a script. */
  countTask() {
    this.words[WORD.MOVES] += MOST_MOVES;
    this.clock.advance(MOST_MOVES);
  }

  /**
   * A real answer has come to an agent: that is its move.
   * @param {number} agent
   * @returns {boolean} whether it may come now; if not, the run has diverged from its row by it
   */
  answered(agent) {
    const { answers, row, strategy } = this;
    if (!row.admits(agent)) return false;
    answers.goesOn(agent);
    this.vain?.news();
    strategy.moves(agent, agent + REAL_ANSWER);
    if (answers.came(agent)) this.countTask();
    return true;
  }

  /** @param {number} agent that has looked for a real answer in vain */
  polledInVain(agent) {
    this.answers.polledInVain(agent);
    this.row.misses();
  }

  /** @returns {import("./end.mjs").BoardEnding} how a run ends if nobody can move */
  #standstill() {
    const { line, words } = this;
    if (this.#anyAgent((each) => line.waits(each) && !line.isIdle(each))) return "deadlock";
    if (words[WORD.MAY_REST] === 1) return "finished";
    return this.#anyAgent((each) => line.isIdle(each)) ? "stuck" : "finished";
  }

  /** @param {number} order */
  #prepare(order) {
    const { words } = this;
    this.end.begin();
    this.turn.begin();
    store(words, WORD.ORDER, order);
    store(words, WORD.RUN, (load(words, WORD.RUN) + 1) | 0);
  }

  /** @param {(agent: number) => boolean} holds @returns {boolean} whether it holds of any agent */
  #anyAgent(holds) {
    for (let agent = 0; agent < this.rules.agents; agent += 1) {
      if (holds(agent)) return true;
    }
    return false;
  }
}
