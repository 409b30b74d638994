// The Atomics that agents get: each call on a recorded buffer is made when it is the agent's turn, and recorded. A call
// on an array of the program's own is the engine's.

import { CALLS, CALL_NUMBERS, kindOf } from "../../script/kinds.mjs";
import { isWhole } from "../../script/operands.mjs";
import { bufferOf, likeEngine, lengthOf, offsetOf, put } from "../primordials.mjs";
import { countFrom, heldOperand, indexFrom, limitOf, operandFrom, timeoutFrom } from "./conversions.mjs";
import { callElsewhere } from "./elsewhere.mjs";
import { unwrapped } from "./ordinary/watched.mjs";

const { store: STORE, wait: WAIT, notify: NOTIFY } = CALL_NUMBERS;

/** @typedef {import("../memory/records.mjs").Call} Call */
/** @typedef {import("./elsewhere.mjs").Functions} Functions */

/**
 * @typedef {object} AgentCalls how the calls of one agent are made
 * @property {(buffer: unknown) => number} blockOf the position of a buffer among those that are recorded, or -1
 * @property {(call: Call, view: object, called: Function) => unknown} make blocks until it is the agent's turn; the
 * agent's own frame is above the function that was called
 * @property {(why: string) => never} refuse ends the run, for a call that no script can have
 */

/** @typedef {AgentCalls & import("./elsewhere.mjs").Elsewhere} Asking */

/**
 * Adds an operand that is no safe integer. A store returns the operand as the language has it, whatever a script holds.
 * @param {Call} asked
 * @param {number | bigint} value
 */
function addOperand(asked, value) {
  const held = heldOperand(value);
  if (held !== value && asked.call === STORE) asked.returns = value;
  asked.operands[asked.operands.length] = held;
}

/**
 * What a script has for a call. What the language converts is converted here, in its order.
 * @param {number} call
 * @param {any[]} given
 * @param {object} view the typed array, as the engine knows it
 * @param {number} kind
 * @param {number} block
 * @returns {Call}
 */
export function callOf(call, given, view, kind, block) {
  /** @type {Call} */
  const asked = {
    call, kind, block, offset: offsetOf(view), length: lengthOf(view), index: 0, operands: [], limit: undefined,
    milliseconds: undefined, returns: undefined,
  };
  const index = given[1];
  asked.index = isWhole(index) ? index + 0 : indexFrom(index, asked);
  for (let at = 0; at < CALLS[call].operands; at += 1) {
    const value = given[2 + at];
    if (isWhole(value)) asked.operands[at] = value + 0;
    else addOperand(asked, operandFrom(value, asked));
  }
  if (call === NOTIFY) asked.limit = countFrom(given[2], asked);
  if (call === WAIT) {
    // A script has no fraction of a timeout, but the run's time goes on by all of it.
    asked.milliseconds = timeoutFrom(given[3], asked);
    asked.limit = limitOf(asked.milliseconds);
  }
  return asked;
}

/**
 * One function of the agents' Atomics.
 * @param {Functions} engine
 * @param {Asking} asking
 * @param {number} call
 * @returns {(...given: any[]) => unknown}
 */
function recorded(engine, asking, call) {
  const { name } = CALLS[call];
  const made = (/** @type {any[]} */ ...given) => {
    const view = unwrapped(given[0]);
    const kind = kindOf(view);
    const block = kind < 0 ? -1 : asking.blockOf(bufferOf(view));
    if (block < 0 || !asking.isRecording()) {
      given[0] = view;
      return callElsewhere(engine, asking, name, given, kind < 0 ? undefined : bufferOf(view));
    }
    const asked = callOf(call, given, view, kind, block);
    const answer = asking.make(asked, view, made);
    return asked.returns ?? answer;
  };
  return made;
}

/**
 * A function that no script can have: refused on a recorded buffer.
 * @param {Functions} engine
 * @param {Asking} asking
 * @param {string} name
 * @returns {(...given: any[]) => unknown}
 */
function outside(engine, asking, name) {
  return (...given) => {
    const view = unwrapped(given[0]);
    const buffer = kindOf(view) < 0 ? undefined : bufferOf(view);
    const isRecorded = buffer !== undefined && asking.blockOf(buffer) >= 0;
    if (isRecorded) return asking.refuse(`Atomics.${name}: no script can have this function: use Atomics.wait`);
    given[0] = view;
    return callElsewhere(engine, asking, name, given, buffer);
  };
}

// These touch no memory, so they are the engine's own and aren't recorded.
const HARMLESS = ["isLockFree", "pause"];

/**
 * The agents' Atomics, with the same functions as the engine's. A function that no script can have is refused when it
 * is called.
 * @param {typeof Atomics} engine
 * @param {Asking} asking
 * @returns {typeof Atomics}
 */
export function recordedAtomics(engine, asking) {
  const own = /** @type {Functions} */ (/** @type {object} */ (engine));
  /** @type {Functions} */
  const functions = {};
  for (const name of Object.getOwnPropertyNames(own)) functions[name] = own[name];
  const made = /** @type {typeof Atomics} */ ({});
  for (const name of Object.keys(functions)) {
    let value = functions[name];
    if (name in CALL_NUMBERS) value = likeEngine(recorded(functions, asking, CALL_NUMBERS[name]), value);
    else if (!HARMLESS.includes(name)) value = likeEngine(outside(functions, asking, name), value);
    put(made, name, value);
  }
  const tag = { value: "Atomics", configurable: true };
  return Object.defineProperty(made, Symbol.toStringTag, tag);
}
