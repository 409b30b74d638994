// Plays an agent's part in a run, in the agent's own thread. It asks for each call, makes it with the engine's own
// Atomics when the agent has the turn, and logs it.

import { CALL_NUMBERS, SIZES } from "../../script/kinds.mjs";
import { END } from "../board/deadlines.mjs";
import { JOIN, LEAVE, MAKE, TIME_UP } from "../board/journal.mjs";
import { placeNumber } from "../memory/known-places.mjs";
import { PHASE } from "../memory/layout.mjs";
import { FLAG } from "../memory/log.mjs";
import { byteOf } from "../memory/recorded-memory.mjs";
import { NOTED } from "./ordinary-accesses.mjs";
import { foundBy, leftOpen } from "./answer.mjs";
import { bytesAsked, effectOf, flagsAsked, isIndexWithin, isOnlyByTime } from "./effects.mjs";
import { engineCall } from "./engine.mjs";
import { numberAbove } from "./frames.mjs";
import { AgentRun, RunIsOver } from "./agent-run.mjs";
import { undone } from "./undone.mjs";

const { wait: WAIT, notify: NOTIFY } = CALL_NUMBERS;
const { RangeError: EngineRangeError, TypeError: EngineTypeError } = globalThis;

/** What a wait does as it is called: it compares, and looks at the waiters. */
const COMPARES = FLAG.ATOMIC | FLAG.READS | FLAG.WAITERS;

/** @typedef {import("../memory/records.mjs").Call} Call */
/** @typedef {import("./ordinary/context.mjs").WatchedPlace} WatchedPlace */
/** @typedef {import("./agent-context.mjs").AgentContext} AgentContext */

export class Player {
  /** @param {number} agent its number @param {AgentContext} context */
  constructor(agent, context) {
    this.agent = agent;
    this.context = context;
    /** The run in which it began last. What an earlier worker of the agent has begun isn't begun again. */
    this.started = context.board.turn.lastStart(agent);
    this.part = new AgentRun(agent, context);
  }

  /** Whether the agent has a part in a run now. */
  get isPlaying() {
    return this.part.isPlaying;
  }

  /**
   * Waits until there is something to begin.
   * @returns {number} one of the board's `ORDER`
   */
  awaitOrder() {
    const { board } = this.context;
    this.started = board.turn.awaitStart(this.agent, this.started);
    return board.ordered();
  }

  /**
   * Plays the agent's part in a run, from its start to its end, and hands the turn on.
   * @param {() => unknown} body
   * @param {(thrown: unknown) => string} described what was thrown, as a text
   */
  play(body, described) {
    this.begin();
    let problem;
    try {
      problem = leftOpen(body(), "an agent", this.context.later.place);
    } catch (thrown) {
      problem = `threw ${described(thrown)}`;
    }
    this.#finish(problem);
  }

  /**
   * Does something else than its part in a run. Nothing of it is recorded. It reports what went wrong.
   * @param {() => unknown} body
   * @param {(thrown: unknown) => string} described
   */
  serve(body, described) {
    const { board, chance, later } = this.context;
    let problem;
    chance.begin(board.clock.seed());
    later.begin();
    try {
      const answer = body();
      problem = leftOpen(answer, "it", later.place) ?? foundBy(answer) ?? undone(later, "it");
    } catch (thrown) {
      problem = `threw ${described(thrown)}`;
    }
    later.end();
    board.turn.becomeIdle(this.agent);
    board.end.end("finished", problem ?? "");
  }

  /**
   * Makes a call when it is the agent's turn.
   * @param {Call} call
   * @param {object} view its typed array
   * @param {Function} called the function of Atomics that the agent's code has called
   * @param {() => void} [before] called when the agent has the turn
   * @returns {unknown} what the call returns; an error that the call throws is thrown
   */
  make(call, view, called, before) {
    const source = this.begins(call, called, before);
    if (call.call === WAIT) return this.#wait(call, view, source, called);
    if (call.call === NOTIFY) return this.#notify(call, view, source);
    return this.#access(call, view, source);
  }

  /**
   * Begins a call when it is the agent's turn.
   * @param {Call} call
   * @param {Function} called
   * @param {() => void} [before] as above
   * @returns {number} its line of code, if these are recorded
   */
  begins(call, called, before) {
    this.part.enter();
    this.part.stayWithin(call);
    const source = this.#source(called);
    this.#ask(call);
    this.untilTurn();
    before?.();
    this.part.followSchedule(call);
    this.#made(call);
    return source;
  }

  /** @param {Call} call that begins without a draw: the agent has just got the turn */
  beginsNow(call) {
    this.part.enter();
    this.part.stayWithin(call);
    this.#made(call);
  }

  /** @param {Call} call a notify that is made without a draw @param {object} view */
  note(call, view) {
    this.beginsNow(call);
    this.#notify(call, view, 0);
  }

  /**
   * Ends the run for something that a run can't have.
   * @param {string} text
   * @returns {never}
   */
  refuse(text) {
    this.part.enter();
    return this.part.end("failed", `agent ${this.agent} ${text}`);
  }

  /**
   * Ends the run for something that was noted, since nobody sees it.
   * @returns {never}
   */
  endUnseen() {
    this.part.enter();
    return this.part.end("failed", "");
  }

  /**
   * Notes an ordinary access that is about to be made.
   * @param {WatchedPlace} place
   * @param {number} from its first byte in the block
   * @param {number} to the byte behind its last one
   * @param {boolean} writes
   */
  seen(place, from, to, writes) {
    const { part } = this;
    if (part.isOver || this.context.board.end.mayHaveEnded()) part.interrupted();
    const noted = part.accesses.note(place, from, to, writes, part.made);
    if (noted === NOTED.SPINS) part.spins("it reads the same bytes again and again without a call of Atomics");
    if (noted !== NOTED.FULL) return;
    part.meetsLimit(`more than ${this.context.log.most} reads and writes were made that differ`);
  }

  /** @returns {boolean} whether the agent prints nothing: its run is made only to learn or to compare, or is over */
  isSilent() {
    const { isOver, isPlaying } = this.part;
    const { mode } = this.context.board;
    return mode.isPilot || mode.isSilent || (isPlaying && isOver);
  }

  /** @returns {number} what time it is in the run */
  look() {
    this.part.needsRun();
    this.context.board.spins.found(this.agent);
    this.context.board.vain?.news();
    return this.context.board.clock.look();
  }

  /** @param {number} milliseconds for which the agent sleeps, and nobody else can wake it */
  doze(milliseconds) {
    this.part.needsRun();
    this.context.board.clock.pass(milliseconds);
  }

  begin() {
    const { board, stores, later, messages, unseen, chance } = this.context;
    this.part.begin();
    messages.begin();
    unseen.begin();
    stores.join();
    chance.begin(board.clock.seed());
    later.begin();
    board.line.become(this.agent, PHASE.RUNS);
    board.turn.leave(this.agent);
  }

  /** @param {Call} call @param {object} view @param {number} source */
  #access(call, view, source) {
    const value = this.#tried(call, source, () => {
      const from = byteOf(call);
      if (isIndexWithin(call)) this.context.stores.touch(call.block, from, from + SIZES[call.kind]);
      return engineCall(call, view);
    });
    const from = byteOf(call);
    if (this.context.memory.syncShadow(call.block, from, from + SIZES[call.kind])) this.context.board.spins.news();
    this.#log(MAKE, call, FLAG.ATOMIC | effectOf(call, value), source);
    return this.#answer(value, MAKE);
  }

  /**
   * The engine's notify makes the checks and wakes nobody: no thread waits in the engine's own line.
   * @param {Call} call
   * @param {object} view
   * @param {number} source
   */
  #notify(call, view, source) {
    this.#tried(call, source, () => engineCall(call, view));
    this.#log(MAKE, call, FLAG.WAITERS, source);
    return this.#answer(this.context.board.line.notify(call.block, byteOf(call), call.limit), MAKE);
  }

  /**
   * The engine's wait makes the checks and compares, with no time at all.
   * @param {Call} call
   * @param {object} view
   * @param {number} source
   * @param {Function} called
   */
  #wait(call, view, source, called) {
    const { board, canBlock } = this.context;
    const word = this.compared(call, view, source, canBlock);
    if (call.limit !== undefined) board.spins.watch();
    if (word === "not-equal") return this.ends(call, word, source);
    this.joins(call, source);
    const milliseconds = call.limit === undefined ? undefined : call.milliseconds ?? call.limit;
    board.wait(this.agent, call.block, byteOf(call), milliseconds);
    this.untilTurn();
    this.part.followSchedule();
    const end = board.deadlines.end(this.agent, milliseconds ?? 0);
    if (end === END.WOKEN) {
      this.#log(LEAVE, call, FLAG.WAITERS, source);
      return this.#answer("ok", LEAVE);
    }
    const isOnly = isOnlyByTime(call, view, end);
    const line = isOnly ? numberAbove(this.context.sources, called) : source;
    this.#log(TIME_UP, call, FLAG.WAITERS | (isOnly ? FLAG.ONLY_BY_TIME : 0), line);
    this.context.ownClock.timeOut(milliseconds ?? 0);
    return this.#answer("timed-out", TIME_UP);
  }

  /**
   * The engine's part of a wait: it makes the checks and compares.
   * @param {Call} call
   * @param {object} view
   * @param {number} source
   * @param {boolean} [isAllowed] whether the agent may wait; if not, that is what is wrong with the call
   * @returns {"not-equal" | "timed-out"}
   */
  compared(call, view, source, isAllowed = true) {
    const { stores } = this.context;
    return this.#tried(call, source, () => {
      const from = byteOf(call);
      if (isIndexWithin(call)) stores.touch(call.block, from, from + SIZES[call.kind]);
      const found = engineCall(call, view);
      if (!isAllowed) throw new EngineTypeError("Atomics.wait cannot be called in this context");
      return found;
    });
  }

  /** @param {Call} call a wait that doesn't join the line @param {string} word its result @param {number} source */
  ends(call, word, source) {
    this.#log(MAKE, call, COMPARES, source);
    return this.#answer(word, MAKE);
  }

  /** @param {Call} call a wait that joins the line @param {number} source @param {number} [more] flags */
  joins(call, source, more = 0) {
    this.context.records.join(this.part.made);
    this.#log(JOIN, call, COMPARES | more, source);
    this.context.board.did(this.agent, JOIN);
  }

  /**
   * What the engine returns. An error that it throws is the call's answer, and is thrown on to the agent's code.
   * @template T
   * @param {Call} call
   * @param {number} source
   * @param {() => T} make
   * @returns {T}
   */
  #tried(call, source, make) {
    try {
      return make();
    } catch (error) {
      const isRange = error instanceof EngineRangeError;
      // No index is to blame, so the stack ran out: that is no answer of the call.
      if (isRange && isIndexWithin(call)) this.part.outOfStack();
      this.#log(MAKE, call, 0, source);
      this.#answer(isRange ? "RangeError" : "TypeError", MAKE);
      throw error;
    }
  }

  /** @param {number} event @param {Call} call @param {number} flags @param {number} source */
  #log(event, call, flags, source) {
    const from = byteOf(call);
    this.context.log.append(
      event, this.agent, call.call, flags, this.part.made, call.block, from, from + SIZES[call.kind], call, source,
    );
  }

  /**
   * Writes down the call's answer; the agent's code goes on.
   * @template {number | bigint | string} T
   * @param {T} answer
   * @param {number} event
   * @returns {T}
   */
  #answer(answer, event) {
    const { board, records } = this.context;
    records.answer(this.part.made, answer);
    if (board.spins.isWatching()) this.#lookForSpin(event);
    this.part.made += 1;
    board.did(this.agent, event);
    board.line.become(this.agent, PHASE.RUNS);
    this.part.goOn();
    board.turn.leave(this.agent);
    return answer;
  }

  /** @param {number} event that was logged for the agent's last call, which has its answer */
  #lookForSpin(event) {
    const { board: { spins }, records } = this.context;
    if (event !== LEAVE && records.comesAgain(this.part.made)) spins.repeated(this.agent);
    else spins.found(this.agent);
  }

  /** @param {Call} call that the agent asks for */
  #ask(call) {
    const { board } = this.context;
    const bytes = bytesAsked(call);
    const byte = byteOf(call);
    const from = bytes === 0 ? 0 : placeNumber(call.block, byte);
    board.strategy.asks(this.agent, from, from + bytes, flagsAsked(call), board.places.placeOf(call.block, byte));
    board.line.become(this.agent, PHASE.ASKS);
  }

  /** @param {Call} call that is made now */
  #made(call) {
    this.context.records.begin(this.part.made, call);
    this.context.board.vain?.news();
    this.part.last = call;
  }

  /** Sleeps until the agent's move was picked. */
  untilTurn() {
    const { board } = this.context;
    if (!board.pass(this.agent)) board.turn.sleep(this.agent);
    if (board.isOverFor(this.agent)) this.part.cancelled();
  }

  /** @param {string | undefined} problem why the agent's code ended early, if it did */
  #finish(problem) {
    const { board, later, messages, unseen } = this.context;
    later.end();
    if (problem === undefined && !this.part.isOver) messages.noteLeft();
    unseen.write();
    board.journal.countOrdinary(this.agent, this.part.accesses.count);
    let hasTurn = false;
    try {
      if (this.part.isInside) this.part.outOfStack();
      hasTurn = board.turn.enter(this.agent);
      if (hasTurn) this.part.take();
    } catch (over) {
      if (!(over instanceof RunIsOver)) throw over;
      hasTurn = false;
    }
    this.part.isPlaying = false;
    board.line.become(this.agent, PHASE.FINISHED);
    board.turn.becomeIdle(this.agent);
    if (!hasTurn) return;
    const why = problem ?? undone(later, "an agent");
    if (why === undefined) board.pass(this.agent);
    else board.end.end("failed", `agent ${this.agent} ${why}`);
  }

  /** @param {Function} called @returns {number} where the agent's code is, if sources are noted */
  #source(called) {
    return this.context.board.mode.notesLines ? numberAbove(this.context.sources, called) : 0;
  }
}
