// Elements in the bytes of all blocks, without a sign: a Number, or a BigInt if it has eight bytes.

import { DOES } from "./nodes.mjs";

/** @typedef {number | bigint} Raw */

/**
 * @param {Uint8Array} bytes
 * @param {number} at
 * @param {number} size 1, 2, 4 or 8
 * @returns {Raw}
 */
export function rawAt(bytes, at, size) {
  if (size === 4) return (bytes[at] | (bytes[at + 1] << 8) | (bytes[at + 2] << 16) | (bytes[at + 3] << 24)) >>> 0;
  if (size === 1) return bytes[at];
  if (size === 2) return bytes[at] | (bytes[at + 1] << 8);
  let value = 0n;
  for (let each = 7; each >= 0; each -= 1) value = (value << 8n) | BigInt(bytes[at + each]);
  return value;
}

/**
 * @param {Uint8Array} bytes
 * @param {number} at
 * @param {number} size
 * @param {Raw} raw
 */
export function putRaw(bytes, at, size, raw) {
  if (typeof raw === "bigint") {
    for (let each = 0, rest = raw; each < size; each += 1, rest >>= 8n) bytes[at + each] = Number(rest & 255n);
    return;
  }
  for (let each = 0, rest = raw; each < size; each += 1, rest >>>= 8) bytes[at + each] = rest & 255;
}

/** @param {number} size @param {number | bigint} value @returns {Raw} the element that a value is stored as */
export function rawOf(size, value) {
  if (typeof value === "bigint") return BigInt.asUintN(8 * size, value);
  return Number(BigInt.asUintN(8 * size, BigInt(value)));
}

/**
 * What a call leaves in its element.
 * @param {import("./nodes.mjs").Node} node a call that isn't a wait or a notify
 * @param {Raw} old
 * @returns {Raw}
 */
export function changed({ does, size, raw: { 0: x, 1: y } }, old) {
  if (does === DOES.LOAD) return old;
  if (does === DOES.STORE || does === DOES.EXCHANGE) return x;
  if (does === DOES.COMPARE_EXCHANGE) return old === x ? y : old;
  if (typeof old === "bigint") return changedBig(does, old, /** @type {bigint} */ (x));
  return changedNumber(does, size, old, Number(x));
}

/** @param {number} does @param {bigint} old @param {bigint} x */
function changedBig(does, old, x) {
  if (does === DOES.ADD) return BigInt.asUintN(64, old + x);
  if (does === DOES.SUB) return BigInt.asUintN(64, old - x);
  if (does === DOES.AND) return old & x;
  return does === DOES.OR ? old | x : old ^ x;
}

/** @param {number} does @param {number} size @param {number} old @param {number} x */
function changedNumber(does, size, old, x) {
  let value = old ^ x;
  if (does === DOES.ADD) value = old + x;
  else if (does === DOES.SUB) value = old - x;
  else if (does === DOES.AND) value = old & x;
  else if (does === DOES.OR) value = old | x;
  return size === 4 ? value >>> 0 : value & (size === 1 ? 0xff : 0xffff);
}

const DIGITS = Array.from({ length: 256 }, (_, byte) => byte.toString(16).padStart(2, "0"));

/** @param {Uint8Array} bytes @param {number} from @param {number} to @returns {string} in hexadecimal digits */
export function hexOf(bytes, from, to) {
  let text = "";
  for (let at = from; at < to; at += 1) text += DIGITS[bytes[at]];
  return text;
}

/**
 * What an ordinary read is answered.
 * @param {Uint8Array} bytes
 * @param {number} at
 * @param {number} size
 * @returns {number | string}
 */
export function answerOfRead(bytes, at, size) {
  if (size === 4 || size === 1 || size === 2) return /** @type {number} */ (rawAt(bytes, at, size));
  return hexOf(bytes, at, at + size);
}

/** @param {number | string} answer @param {number} size @returns {Uint8Array} the bytes that a read was answered */
export function bytesOfRead(answer, size) {
  const bytes = new Uint8Array(size);
  if (typeof answer === "number") putRaw(bytes, 0, size, answer);
  else for (let at = 0; at < size; at += 1) bytes[at] = parseInt(answer.slice(2 * at, 2 * at + 2), 16);
  return bytes;
}
