// What a call of Atomics does to its element, as flags of the log: what it may do, before it is made, and what it did.

import { CALL_NUMBERS, SIZES } from "../../script/kinds.mjs";
import { END } from "../board/deadlines.mjs";
import { FLAG } from "../memory/log.mjs";
import { engineCall, isEqualElement } from "./engine.mjs";

const { wait: WAIT, notify: NOTIFY, load: LOAD, store: STORE, compareExchange: COMPARE_EXCHANGE } = CALL_NUMBERS;

/** @typedef {import("../memory/records.mjs").Call} Call */

/** @param {Call} call @returns {boolean} whether a call's index is one of its view's */
export const isIndexWithin = (call) => call.index >= 0 && call.index < call.length;

/** @param {Call} call @returns {number} how many bytes it touches; 0: none */
export const bytesAsked = (call) => (isIndexWithin(call) ? call.bytes ?? SIZES[call.kind] : 0);

/** @param {Call} call @returns {number} what a call may do, as flags, before it is done */
export function flagsAsked(call) {
  if (call.call === LOAD) return FLAG.READS;
  if (call.call === STORE) return FLAG.WRITES;
  if (call.call === NOTIFY) return FLAG.WAITERS;
  return call.call === WAIT ? FLAG.READS | FLAG.WAITERS : FLAG.READS | FLAG.WRITES;
}

/**
 * What an access does to its element: whether it reads and writes it.
 * @param {Call} call
 * @param {number | bigint} value that it returns
 */
export function effectOf(call, value) {
  if (call.call === LOAD) return FLAG.READS;
  if (call.call === STORE) return FLAG.WRITES;
  if (call.call !== COMPARE_EXCHANGE) return FLAG.READS | FLAG.WRITES;
  return isEqualElement(call.kind, call.operands[0], value) ? FLAG.READS | FLAG.WRITES : FLAG.READS;
}

/**
 * Whether a wait went on only because its time was up. Nothing else could move, and it hasn't seen that its word has
 * changed, or no other agent is left that could go on.
 * @param {Call} call
 * @param {object} view
 * @param {number} end one of `END`
 */
export function isOnlyByTime(call, view, end) {
  return end === END.ALONE || (end === END.LAST && engineCall(call, view) === "not-equal");
}
