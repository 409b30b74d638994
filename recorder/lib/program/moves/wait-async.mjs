// Atomics.waitAsync in a thread of a program. A wait on a block is in the board's line. A wait on memory that no other
// thread can reach is this thread's own, until the memory becomes a block. The promise is settled by a task of the
// thread's event loop, and a pending wait doesn't keep the thread alive, as in node.

import { CALL_NUMBERS, kindOf } from "../../../script/kinds.mjs";
import { callOf } from "../../agent/atomics.mjs";
import { engineCall } from "../../agent/engine.mjs";
import { sourceAbove } from "../../agent/frames.mjs";
import { unwrapped } from "../../agent/ordinary/watched.mjs";
import { NO_WAITER } from "../../board/async-waiters.mjs";
import { byteOf } from "../../memory/recorded-memory.mjs";
import { apply, bufferOf, likeEngine, put } from "../../primordials.mjs";
import { Buffers } from "./buffers.mjs";

const { wait: WAIT, notify: NOTIFY } = CALL_NUMBERS;
const { Promise: EnginePromise } = globalThis;
const { waitAsync: engineWaitAsync } = /** @type {any} */ (Atomics);

/** @typedef {import("../../memory/records.mjs").Call} Call */

/**
 * @typedef {object} Waiting a wait whose promise isn't settled
 * @property {Call} call
 * @property {number} buffer the number of its buffer, before that was a block
 * @property {number} deadline on the run's clock; Infinity: it has none
 * @property {(how: "ok" | "timed-out") => void} resolve
 * @property {number} slot on the board, or `NO_WAITER`
 * @property {number} made which of the thread's calls it is
 * @property {number} order which notify has woken it, if it has no slot; 0: it still waits
 * @property {string | undefined} where the code has called it
 */

/**
 * @typedef {object} WaitAsyncContext what waits need of their thread
 * @property {import("./moves.mjs").Moves} moves
 * @property {import("./buffers.mjs").Buffers} buffers
 * @property {() => boolean} isPlaying
 * @property {(why: string) => never} refuse
 */

/** @param {Call} call @returns {number} when its time is up, after now */
const timeOf = ({ limit, milliseconds }) => (limit === undefined ? Infinity : milliseconds ?? limit);

export class WaitAsync {
  /** @type {Waiting[]} in the order of their calls */
  #pending = [];

  /** @param {WaitAsyncContext} around */
  constructor(around) {
    this.around = around;
    this.waiters = /** @type {import("../../board/async-waiters.mjs").AsyncWaiters} */ (around.moves.board.waiters);
    around.buffers.onBlock = (buffer, block) => this.#join(buffer, block);
  }

  /** Nothing of an earlier run is left. */
  clear() {
    this.#pending = [];
  }

  /** @param {object} atomics that gets the function of this thread */
  install(atomics) {
    const waitAsync = (/** @type {any[]} */ ...given) => this.#wait(given, waitAsync);
    put(atomics, "waitAsync", likeEngine(waitAsync, engineWaitAsync));
  }

  /**
   * Wakes waits on memory that no other thread can reach.
   * @param {any[]} given what Atomics.notify was given
   * @returns {number} how many
   */
  notify(given) {
    const { buffers } = this.around;
    const view = given[0];
    const call = callOf(NOTIFY, given, view, kindOf(view), NO_WAITER);
    return engineCall(call, view) + this.#wake(buffers.numberOf(bufferOf(view)), byteOf(call), call.limit ?? Infinity);
  }

  // What the loop asks.

  /** @returns {string[]} the waits that aren't settled, in words */
  texts() {
    return this.#pending.map(({ where }) => `Atomics.waitAsync${where === undefined ? "" : ` from ${where}`}`);
  }

  /** @returns {number} when the first wait ends by its time, on the run's clock; Infinity: none does */
  get deadline() {
    let first = Infinity;
    for (let at = 0; at < this.#pending.length; at += 1) {
      const waiting = this.#pending[at];
      if (this.#orderOf(waiting) === 0 && waiting.deadline < first) first = waiting.deadline;
    }
    return first;
  }

  /** @returns {boolean} whether a notify has woken one */
  get isWoken() {
    return this.#pending.some((waiting) => this.#orderOf(waiting) > 0);
  }

  /** Settles those that were notified, in the order of the notifies. Node does it by one task. */
  settle() {
    const woken = this.#pending.filter((waiting) => this.#orderOf(waiting) > 0);
    woken.sort((one, other) => this.#orderOf(one) - this.#orderOf(other));
    woken.forEach((waiting) => this.#end(waiting, false));
  }

  /** Settles the one whose time is up first. */
  timeOut() {
    const { deadline } = this;
    const first = this.#pending.find((waiting) => this.#orderOf(waiting) === 0 && waiting.deadline === deadline);
    if (first !== undefined) this.#end(first, true);
  }

  /**
   * @param {any[]} given
   * @param {Function} called the function that the program's code has called
   */
  #wait(given, called) {
    const { moves, buffers, isPlaying, refuse } = this.around;
    const view = unwrapped(given[0]);
    const kind = kindOf(view);
    const buffer = kind < 0 ? -1 : buffers.numberOf(bufferOf(view));
    given[0] = view;
    if (buffer < 0 && kind >= 0 && isPlaying() && Buffers.isShared(bufferOf(view))) {
      refuse("called Atomics.waitAsync on a SharedArrayBuffer that grows, which isn't simulated yet");
    }
    if (buffer < 0 || !isPlaying()) return apply(engineWaitAsync, Atomics, given);
    // Conversions run the program's code, which may share the memory.
    const call = callOf(WAIT, given, view, kind, NO_WAITER);
    if (!this.waiters.hasRoom()) refuse("called Atomics.waitAsync while as many waits are pending as a run can have");
    call.block = buffers.blockOf(buffer);
    const made = moves.player.part.made;
    const word = call.block < 0 ? engineCall(call, view) : moves.compare(call, view, called);
    if (word === "not-equal" || timeOf(call) <= 0) return { async: false, value: word };
    return { async: true, value: this.#begin(call, buffer, made, sourceAbove(called)) };
  }

  /**
   * @param {Call} call
   * @param {number} buffer
   * @param {number} made
   * @param {string | undefined} where
   * @returns {Promise<string>}
   */
  #begin(call, buffer, made, where) {
    const { board } = this.around.moves;
    return new EnginePromise((resolve) => {
      const slot = call.block < 0 ? NO_WAITER : this.#slotOf(call);
      const deadline = board.clock.now() + timeOf(call);
      this.#pending.push({ call, buffer, deadline, resolve, slot, made, order: 0, where });
    });
  }

  /** @param {Call} call on a block @returns {number} its slot in the line */
  #slotOf(call) {
    const { moves: { board, agent } } = this.around;
    return this.waiters.join(agent, call.block, byteOf(call), board.line.ticket());
  }

  /**
   * A buffer has become a block: the waits on it join the line.
   * @param {number} buffer
   * @param {number} block
   */
  #join(buffer, block) {
    for (let at = 0; at < this.#pending.length; at += 1) {
      const waiting = this.#pending[at];
      if (waiting.buffer !== buffer || waiting.slot !== NO_WAITER || waiting.order > 0) continue;
      waiting.call.block = block;
      waiting.made = this.around.moves.joinNow(waiting.call);
      waiting.slot = this.#slotOf(waiting.call);
    }
  }

  /** @param {number} buffer that is no block @param {number} byte @param {number} count @returns {number} how many */
  #wake(buffer, byte, count) {
    let woken = 0;
    for (let at = 0; at < this.#pending.length && woken < count; at += 1) {
      const waiting = this.#pending[at];
      if (waiting.buffer !== buffer || waiting.order > 0 || byteOf(waiting.call) !== byte) continue;
      waiting.order = this.waiters.nextOrder();
      woken += 1;
    }
    return woken;
  }

  /** @param {Waiting} waiting @returns {number} which notify has woken it; 0: it still waits */
  #orderOf({ slot, order }) {
    return slot === NO_WAITER ? order : this.waiters.order(slot);
  }

  /** @param {Waiting} waiting that is settled @param {boolean} isTimeUp */
  #end(waiting, isTimeUp) {
    this.#pending = this.#pending.filter((each) => each !== waiting);
    const { slot, made, call, resolve } = waiting;
    if (slot !== NO_WAITER) {
      this.waiters.leave(slot);
      this.around.moves.leave(made, call, isTimeUp);
    }
    resolve(isTimeUp ? "timed-out" : "ok");
  }
}
