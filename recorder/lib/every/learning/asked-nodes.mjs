// What an agent asks for, as a node of an automaton has it.

import { stringify } from "../../primordials.mjs";
import { CALLS, SIZES } from "../../../script/kinds.mjs";
import { engineCall } from "../../agent/engine.mjs";
import { isIndexWithin } from "../../agent/effects.mjs";
import { byteOf } from "../../memory/recorded-memory.mjs";
import { rawOf } from "../search/raw-elements.mjs";
import { DOES, NOT_EQUAL, OK } from "../search/nodes.mjs";

/** @typedef {import("../search/nodes.mjs").Node} Node */
/** @typedef {import("../search/nodes.mjs").Answer} Answer */
/** @typedef {import("../../memory/records.mjs").Call} Call */
/** @typedef {Omit<Node, "id" | "automaton" | "edges">} AskedNode */

/** Something that can't be learned of an agent: it says why. */
export class CantLearn extends Error {
  /** @param {string} why @param {boolean} [isRefused] whether the agents do something that nobody can learn */
  constructor(why, isRefused = false) {
    super(why);
    this.isRefused = isRefused;
  }
}

/** @type {AskedNode} */
const NOTHING = {
  does: DOES.FINISHED, kind: 0, block: 0, byte: 0, size: 0, at: 0, operands: [], raw: [], limit: undefined,
  milliseconds: undefined, error: undefined, outside: undefined, returns: undefined, written: undefined, isAlone: false,
  text: undefined,
};

/** @param {string} [text] that it threw @returns {AskedNode} the agent's end */
export const askedEnd = (text) => (text === undefined ? NOTHING : { ...NOTHING, does: DOES.THREW, text });

/**
 * @param {number} block
 * @param {number} from its first byte
 * @param {number} size
 * @param {number} base where the block begins in the bytes of all
 * @param {Uint8Array} [written]
 * @returns {AskedNode} an ordinary access
 */
export const askedAccess = (block, from, size, base, written) =>
  ({
    ...NOTHING, does: written === undefined ? DOES.READ : DOES.WRITE, block, byte: from, size, at: base + from, written,
  });

/**
 * @param {number} asked as `askedOf` has it, or `AGAIN`
 * @param {string} [what] is made of the number that is chosen
 * @returns {AskedNode} a choice
 */
export const askedChoice = (asked, what) => ({ ...NOTHING, does: DOES.CHOOSE, limit: asked, text: what });

/** @param {number} call of an object's calls @returns {AskedNode} its beginning */
export const askedBegin = (call) => ({ ...NOTHING, does: DOES.BEGINS, limit: call });

/**
 * @param {string} outcome of an operation of an object
 * @param {boolean} isAlone whether it has made no act
 * @returns {AskedNode} its end
 */
export const askedOutcome = (outcome, isAlone) => ({ ...NOTHING, does: DOES.ENDS, text: outcome, isAlone });

/**
 * @param {Call} call
 * @param {object} view its array, as the engine knows it
 * @param {number} base where its block begins in the bytes of all
 * @returns {{ asked: AskedNode, thrown: unknown }} with the error that the engine throws, if it does
 */
export function askedCall(call, view, base) {
  const { call: does, kind, block, operands, limit, milliseconds } = call;
  const size = SIZES[kind];
  const byte = byteOf(call);
  const own = operands.slice(0, CALLS[does].operands);
  const { returns } = call;
  const at = base + byte;
  const asked = { ...NOTHING, does, kind, block, byte, size, at, operands: own, limit, milliseconds, returns };
  try {
    // The bytes are only scratch.
    engineCall(call, view);
  } catch (thrown) {
    const error = thrown instanceof RangeError ? "RangeError" : "TypeError";
    // No index is to blame, so the stack ran out.
    if (error === "RangeError" && isIndexWithin(call)) throw thrown;
    const outside = { offset: call.offset, length: call.length, index: call.index };
    return { asked: { ...asked, error, outside }, thrown };
  }
  return { asked: { ...asked, raw: own.map((value) => rawOf(size, value)) }, thrown: undefined };
}

const WORDS = new Map([[OK, "ok"], [NOT_EQUAL, "not-equal"]]);

/**
 * What a call returns if it was answered that.
 * @param {Call} call
 * @param {object} view
 * @param {Answer} answer
 * @param {DataView} bytes of its block
 * @returns {unknown}
 */
export function returned(call, view, answer, bytes) {
  const { call: does, kind } = call;
  if (does === DOES.WAIT) return WORDS.get(Number(answer)) ?? "timed-out";
  if (does === DOES.NOTIFY) return answer;
  if (does !== DOES.STORE) putElement(bytes, byteOf(call), SIZES[kind], answer);
  return engineCall(call, view);
}

/** @param {DataView} view @param {number} byte @param {number} size @param {Answer} raw */
function putElement(view, byte, size, raw) {
  if (typeof raw === "bigint") view.setBigUint64(byte, raw, true);
  else if (size === 4) view.setUint32(byte, Number(raw), true);
  else if (size === 2) view.setUint16(byte, Number(raw), true);
  else view.setUint8(byte, Number(raw));
}

/** @param {AskedNode} one @param {AskedNode} other @returns {boolean} whether they ask for the same */
export function isSame(one, other) {
  return one.does === other.does && one.at === other.at && one.block === other.block && one.size === other.size
    && one.kind === other.kind && one.limit === other.limit && one.error === other.error && one.text === other.text
    && one.outside?.index === other.outside?.index && one.returns === other.returns
    && isSameList(one.operands, other.operands)
    && isSameList(one.written ?? [], other.written ?? []);
}

/** @param {ArrayLike<unknown>} one @param {ArrayLike<unknown>} other */
function isSameList(one, other) {
  if (one.length !== other.length) return false;
  for (let at = 0; at < one.length; at += 1) if (one[at] !== other[at]) return false;
  return true;
}

/** @param {AskedNode} asked @returns {string} the same only for what `isSame` says, and has the same timeout */
export const keyOf = ({
  does, kind, block, byte, size, operands, limit, milliseconds, error, outside, returns, written, text,
}) =>
  [does, kind, block, byte, size, operands.map((value) => `${value}`).join("_"), limit, error, outside?.index, returns,
    written?.join("_"), text === undefined ? "" : stringify(text), milliseconds].join(".");
