// What the language makes of a call's arguments before the call acts: ECMA-262, 14th edition, clauses 7.1 and 25.4. A
// conversion may run the agent's own code. So it is made once, before the agent asks for the call, and only when the
// engine's checks of all that comes before it have passed.

import { CALLS, CONSTRUCTORS, isBigKind } from "../../script/kinds.mjs";
import { SCRIPT_LIMITS } from "../../script/limits.mjs";
import { isWhole, isWithin128Bits } from "../../script/operands.mjs";
import { engineCall } from "./engine.mjs";
import { bigOf, wholeOf } from "./ordinary/argument-conversions.mjs";

const { RangeError: EngineRangeError, SharedArrayBuffer: EngineShared } = globalThis;
const { isNaN, MAX_SAFE_INTEGER } = Number;
const { asIntN } = BigInt;
const { max, min, trunc } = Math;

/** @typedef {import("../memory/records.mjs").Call} Call */

/** @type {SharedArrayBuffer | undefined} memory for checks, which nobody else has */
let room;

/**
 * Makes the engine's checks of a call, as far as its arguments are taken. What the engine throws is thrown.
 * @param {Call} asked
 * @param {number} length how many elements the call's view has
 */
function check({ call, kind, index, operands }, length) {
  room ??= new EngineShared(SCRIPT_LIMITS.bytes);
  const passing = isBigKind(kind) ? 0n : 0;
  /** @type {any} */
  const given = { call, index, operands: [] };
  for (let at = 0; at < CALLS[call].operands; at += 1) {
    given.operands[at] = at < operands.length ? operands[at] : passing;
  }
  engineCall(given, new CONSTRUCTORS[kind](room, 0, length));
}

/**
 * An index, by ToIndex. It may lie outside the view: the call itself throws then. ToIndex throws beyond 2^53 - 1, and
 * so does the engine for any other index that no script can have.
 * @param {any} value that is no safe integer
 * @param {Call} asked without its index
 * @returns {number}
 */
export function indexFrom(value, asked) {
  check(asked, 1);
  const index = wholeOf(value);
  if (isWhole(index)) return index;
  throw new EngineRangeError("Invalid atomic access index");
}

/**
 * The next operand of a call, as the kind of its array has it: a whole Number or an infinite one, by
 * ToIntegerOrInfinity, or a BigInt. A BigInt that a script can have is taken as it is. With an array of Numbers the
 * call itself throws then, as it does for a Number with BigInts.
 * @param {any} value that is no safe integer
 * @param {Call} asked with its index, and with the operands before this one
 * @returns {number | bigint}
 */
export function operandFrom(value, asked) {
  if (typeof value === "bigint" && isWithin128Bits(value)) return value;
  check(asked, asked.length);
  return isBigKind(asked.kind) ? bigOf(value) : wholeOf(value);
}

/**
 * An operand as a script has it. Elements take a Number modulo 2^32 at most, and a BigInt modulo 2^64; an infinite
 * Number is 0 to them. So one that a script can't hold is taken modulo that: the call finds and leaves the same bytes.
 * @param {number | bigint} value
 * @returns {number | bigint}
 */
export function heldOperand(value) {
  if (typeof value === "bigint") return isWithin128Bits(value) ? value : asIntN(64, value);
  return isWhole(value) ? value : value | 0;
}

/**
 * The count of a notify, by ToIntegerOrInfinity. None means that there is no bound. So does one that no script can
 * hold: there are never as many waiters. One below 0 is 0.
 * @param {any} value
 * @param {Call} asked with its index
 * @returns {number | undefined}
 */
export function countFrom(value, asked) {
  if (value === undefined || value === Infinity) return undefined;
  if (isWhole(value)) return value + 0;
  check(asked, asked.length);
  const count = wholeOf(value);
  if (isWhole(count)) return count;
  return count > 0 ? undefined : 0;
}

/**
 * The timeout of a wait, by ToNumber. None, Infinity and NaN are no timeout.
 * @param {any} value
 * @param {Call} asked with its index and its operand
 * @returns {number | undefined} in milliseconds, with a fraction
 */
export function timeoutFrom(value, asked) {
  if (value === undefined) return undefined;
  if (typeof value !== "number") check(asked, asked.length);
  const milliseconds = +value;
  return isNaN(milliseconds) || milliseconds === Infinity ? undefined : milliseconds;
}

/**
 * A timeout as a script has it. The number has no effect there, since time is a move: its fraction is cut off, and it
 * is brought within ±(2^53 - 1).
 * @param {number | undefined} milliseconds
 */
export const limitOf = (milliseconds) => (milliseconds === undefined ? undefined
  : trunc(min(max(milliseconds, -MAX_SAFE_INTEGER), MAX_SAFE_INTEGER)) + 0);
