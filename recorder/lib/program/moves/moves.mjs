// The moves of a program's thread besides its calls of Atomics. A message is two acts on the waiters of a place of its
// own, one when it is sent and one when it is received. Both are notifies that wake nobody. An event loop that has
// nothing to do waits; one that has something asks for the turn.

import { CALL_NUMBERS, CONSTRUCTORS, KINDS, SIZES } from "../../../script/kinds.mjs";
import { LEAVE, TIME_UP } from "../../board/journal.mjs";
import { FEW_MESSAGES, LOOP_PLACES, MESSAGES, MESSAGE_PLACES, PORT_PLACES } from "../../memory/blocks.mjs";
import { LOOP, NOWHERE, PHASE } from "../../memory/layout.mjs";
import { FLAG } from "../../memory/log.mjs";
import { byteOf } from "../../memory/recorded-memory.mjs";
import { bufferOf } from "../../primordials.mjs";

/** @typedef {import("../../memory/records.mjs").Call} Call */

const { Int32Array } = globalThis;
const INT32 = KINDS.indexOf("Int32");

/** @param {number} agent @returns {number} what a message to a port of a thread goes to, for strategies */
export const toThread = (agent) => LOOP_PLACES + agent;

/** @param {number} port that is being sent itself @returns {number} what a message to it goes to */
export const toPort = (port) => PORT_PLACES + (port % (FEW_MESSAGES - PORT_PLACES));

/**
 * @param {number} message
 * @returns {{ index: number, length: number }} its place, and how long the view is that has it
 */
const placeOf = (message) => ({
  index: message % MESSAGE_PLACES, length: message % MESSAGE_PLACES < FEW_MESSAGES ? FEW_MESSAGES : MESSAGE_PLACES,
});

/** What a message to all channels of a name goes to: the event loop of any thread may have one. */
export const TO_CHANNELS = -1;

export class Moves {
  /**
   * For how many milliseconds the thread that was drawn is to look for real answers; 0: it has something else to do.
   */
  pollMilliseconds = 0;

  /**
   * @param {import("../../agent/player.mjs").Player} player
   * @param {SharedArrayBuffer} messages the memory of the block for messages
   */
  constructor(player, messages) {
    this.player = player;
    this.agent = player.agent;
    this.board = player.context.board;
    this.view = new Int32Array(messages, 0, MESSAGE_PLACES);
  }

  /**
   * Asks for the turn to send a message.
   * @param {Function} called the function that the program's code has called
   * @param {number} to what it goes to, as `toThread`, `toPort` and `TO_CHANNELS` say
   * @returns {number} the message's number
   */
  send(called, to) {
    const { journal } = this.board;
    // Other threads may send messages before it is this one's turn, so the number is known only then.
    const call = this.#edge(to === TO_CHANNELS ? LOOP_PLACES : to);
    if (to === TO_CHANNELS) call.bytes = 4 * (PORT_PLACES - LOOP_PLACES);
    this.count();
    this.player.make(call, this.view, called, () => {
      const { index, length } = placeOf(journal.countMessage());
      call.index = index;
      call.length = length;
    });
    return journal.messages - 1;
  }

  /**
   * Sends a message without a draw.
   * @returns {number} its number
   */
  sendNow() {
    const message = this.board.journal.countMessage();
    this.player.note(this.#edge(message), this.view);
    return message;
  }

  /**
   * Asks for the turn to read the length of a block that grows, or to change it. Each block has a word for its length,
   * which is read or changed by Atomics.
   * @param {number} block
   * @param {Function} called the function that the program's code has called
   * @param {() => boolean} [isChanged] whether it is changed; it is called when the thread has the turn
   */
  touchLength(block, called, isChanged) {
    const view = { kind: INT32, block: MESSAGES, offset: 0, length: FEW_MESSAGES };
    const reads = { call: CALL_NUMBERS.load, ...view, index: block % FEW_MESSAGES, operands: [], limit: undefined };
    /** @type {Call} */
    const call = isChanged === undefined ? reads : { ...reads, call: CALL_NUMBERS.add, operands: [0] };
    this.count();
    this.player.make(call, this.view, called, () => {
      if (isChanged?.() === false) Object.assign(call, reads);
    });
    if (call.call === CALL_NUMBERS.add) this.board.spins.news();
  }

  /** @param {number} message that is received now */
  receive(message) {
    this.player.note(this.#edge(message), this.view);
  }

  /**
   * Asks for the turn to begin a wait in which no thread sleeps. If the word is equal, and the wait's time isn't over,
   * it joins the line.
   * @param {Call} call
   * @param {object} view
   * @param {Function} called the function that the program's code has called
   * @returns {"not-equal" | "timed-out"} what the engine found, with no time
   */
  compare(call, view, called) {
    const { player } = this;
    this.count();
    const source = player.begins(call, called);
    const word = player.compared(call, view, source);
    const isOver = call.limit !== undefined && (call.milliseconds ?? call.limit) <= 0;
    if (word === "not-equal") player.ends(call, word, source);
    else if (isOver) this.#passes(call, source);
    else this.#join(call, source);
    return word;
  }

  /**
   * A wait joins the line without a draw, whatever its word is now: it was equal when the wait began.
   * @param {Call} call
   * @returns {number} which of the thread's calls it is
   */
  joinNow(call) {
    const { player } = this;
    const memory = bufferOf(player.context.memory.real[call.block]);
    call.operands = [new CONSTRUCTORS[call.kind](memory, byteOf(call), 1)[0]];
    player.beginsNow(call);
    this.#join(call, 0);
    return player.part.made - 1;
  }

  /**
   * A wait in which no thread sleeps is settled.
   * @param {number} made which of the thread's calls it is
   * @param {Call} call
   * @param {boolean} isTimeUp
   */
  leave(made, call, isTimeUp) {
    this.player.part.enter();
    this.#ends(made, call, isTimeUp, FLAG.ASYNC);
    this.#goesOn();
  }

  /** Counts the ordinary accesses so far: another thread may end this one when it gives up its turn. */
  count() {
    const { board, agent, player: { part } } = this;
    board.journal.countOrdinary(agent, part.accesses.count);
  }

  /** Lets others move before this thread goes on. */
  yield() {
    this.#ask();
    this.#goOn(undefined);
  }

  /**
   * The event loop has something to do: others may move before.
   * @param {import("../real/real-work.mjs").Pending} pending what the machine may bring besides
   * @param {boolean} mayPoll whether the thread may look for that before
   * @returns {boolean} whether the thread goes on, perhaps by looking; if not, its run is over, or it was ended
   */
  offer({ isSome, byThemselves }, mayPoll) {
    const { board: { answers, row }, agent } = this;
    this.#ask();
    if (isSome && (mayPoll || row.isForced())) answers.offer(agent);
    return this.#resume(undefined, byThemselves);
  }

  /**
   * The event loop waits until there is something to do.
   * @param {number | undefined} milliseconds until a timer is due; undefined: there is none
   * @param {import("../real/real-work.mjs").Pending} pending what the machine may bring besides
   * @returns {boolean} whether the thread goes on, perhaps by looking; if not, its run is over, or it was ended
   */
  idle(milliseconds, { isSome, byThemselves }) {
    const { board, agent } = this;
    this.player.part.enter();
    board.rest(agent, LOOP, milliseconds);
    if (isSome) board.answers.expect(agent);
    return this.#resume(milliseconds ?? 0, byThemselves);
  }

  /**
   * @param {import("../real/real-work.mjs").Pending} pending
   * @returns {string[]} what keeps a thread alive but brings nothing, if no thread can move any more, in words
   */
  silentTexts({ isSome, byThemselves, texts }) {
    if (!isSome) return [];
    const once = texts.filter((text, at) => texts.indexOf(text) === at);
    return [`${once.join(", ")} (nothing came for ${this.board.answers.long(byThemselves) / 1_000} s)`];
  }

  /**
   * @returns {boolean} whether a real answer may come to this thread now; if not, it is held back until the row has it
   */
  isDue() {
    const { board: { answers, row }, agent } = this;
    if (row.isDue(agent)) return true;
    answers.holds(agent);
    return false;
  }

  /** A real answer has come to this thread. If the run diverges by it, nothing of the thread goes on. */
  answered() {
    const { board, agent } = this;
    if (board.answered(agent)) return;
    if (board.turn.enter(agent)) board.end.end("failed", "");
    this.parkForever();
  }

  /** @returns {never} nothing of the thread goes on */
  parkForever() {
    return this.board.turn.parkForever(this.agent);
  }

  /** @param {import("../real/io-polling.mjs").IoPollResult} found the result of looking */
  looked(found) {
    const { board, agent } = this;
    if (found === "less") board.row.takesBack();
    if (found === "nothing") board.polledInVain(agent);
  }

  /** The thread has looked in vain before a task. @returns {boolean} whether it begins that now */
  takesUp() {
    const { board, board: { answers, row, strategy }, agent } = this;
    if (row.isForced()) return false;
    strategy.moves(agent, agent);
    answers.goesOn(agent);
    board.countTask();
    return true;
  }

  /** @param {number} milliseconds for which nobody can wake this thread; Infinity: nobody ever does */
  sleep(milliseconds) {
    this.player.part.enter();
    this.board.rest(this.agent, NOWHERE, milliseconds === Infinity ? undefined : milliseconds);
    this.#goOn(milliseconds);
  }

  /** @param {number} agent whose event loop has something to do now */
  wake(agent) {
    this.board.line.notify(LOOP, agent, 1);
  }

  /** @param {Call} call @param {number} source */
  #join(call, source) {
    const { player } = this;
    player.joins(call, source, FLAG.ASYNC);
    player.part.made += 1;
    this.#goesOn();
  }

  /** @param {Call} call a wait whose time is up as it joins the line @param {number} source */
  #passes(call, source) {
    const { player } = this;
    player.joins(call, source);
    this.#ends(player.part.made, call, true, 0);
    player.part.made += 1;
    this.#goesOn();
  }

  /**
   * @param {number} made which of the thread's calls it is
   * @param {Call} call
   * @param {boolean} isTimeUp
   * @param {number} more flags
   */
  #ends(made, call, isTimeUp, more) {
    const { board, agent, player: { context: { log, records } } } = this;
    const event = isTimeUp ? TIME_UP : LEAVE;
    const from = byteOf(call);
    const flags = FLAG.WAITERS | more;
    log.append(event, agent, call.call, flags, made, call.block, from, from + SIZES[call.kind], call, 0);
    records.answer(made, isTimeUp ? "timed-out" : "ok");
    board.did(agent, event);
  }

  /** The thread's own code goes on. */
  #goesOn() {
    const { board, agent, player } = this;
    board.line.become(agent, PHASE.RUNS);
    player.part.goOn();
    board.turn.leave(agent);
  }

  /** @param {number | undefined} milliseconds of a rest; undefined: it was none */
  #goOn(milliseconds) {
    this.count();
    this.player.untilTurn();
    this.#begin(milliseconds);
  }

  /**
   * @param {number | undefined} milliseconds as above
   * @param {boolean} byThemselves whether real answers may come by themselves
   * @returns {boolean} whether the thread goes on
   */
  #resume(milliseconds, byThemselves) {
    const { board, agent, player: { part } } = this;
    this.pollMilliseconds = 0;
    this.count();
    if (!board.pass(agent)) board.turn.sleep(agent);
    if (board.isOverFor(agent)) {
      board.turn.acknowledgeEnd(agent);
      part.isPlaying = false;
      return false;
    }
    if (board.answers.areLookedFor) this.#looks(byThemselves);
    else this.#begin(milliseconds);
    return true;
  }

  /**
   * The thread was drawn to look for real answers: no time passes, and it is no move.
   * @param {boolean} byThemselves
   */
  #looks(byThemselves) {
    const { board: { answers, row }, agent } = this;
    if (row.isExact) this.pollMilliseconds = answers.patienceByRow(byThemselves, row.due);
    else this.pollMilliseconds = row.isForced() ? answers.long(byThemselves) : answers.patience(agent, byThemselves);
    this.#goesOn();
  }

  #ask() {
    const { player, board, agent } = this;
    player.part.enter();
    board.asksForTask(agent);
    board.line.become(agent, PHASE.ASKS);
  }

  /** @param {number | undefined} milliseconds as above: the thread has the turn now */
  #begin(milliseconds) {
    const { board, agent } = this;
    if (milliseconds !== undefined) board.deadlines.end(agent, milliseconds);
    board.answers.goesOn(agent);
    board.countTask();
    this.#goesOn();
  }

  /** @param {number} message @returns {Call} */
  #edge(message) {
    const call = CALL_NUMBERS.notify;
    const { index, length } = placeOf(message);
    return { call, kind: INT32, block: MESSAGES, offset: 0, length, index, operands: [], limit: 0 };
  }
}
