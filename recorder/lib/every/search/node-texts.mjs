// How nodes and answers are spelled in a file of automata (docs/FORMATS.md).

import { askedText, choiceOf } from "../../../script/choices.mjs";
import { CALLS, SCRIPT_KINDS, SIZES } from "../../../script/kinds.mjs";
import { hexOf } from "./raw-elements.mjs";
import { DOES, NOT_EQUAL, OK, TIMED_OUT, isCall, isChoice, isMark } from "./nodes.mjs";

/** @typedef {import("./nodes.mjs").Node} Node */
/** @typedef {import("./nodes.mjs").Answer} Answer */

const WORDS = new Map([[OK, "ok"], [NOT_EQUAL, "not-equal"], [TIMED_OUT, "timed-out"]]);

/** @param {Node} node @param {Answer} answer of it @returns {string} */
export function nodeAnswerText(node, answer) {
  if (node.does === DOES.WRITE || isMark(node)) return "";
  if (node.does === DOES.READ) return typeof answer === "string" ? answer : hexOfNumber(Number(answer), node.size);
  if (typeof answer === "string") return answer;
  if (node.does === DOES.WAIT) return /** @type {string} */ (WORDS.get(Number(answer)));
  if (node.does === DOES.NOTIFY || isChoice(node)) return `${answer}`;
  if (node.does === DOES.STORE) return operandText(node.operands[0]);
  return operandText(elementOf(node.kind, answer));
}

/** @param {number} value @param {number} size */
function hexOfNumber(value, size) {
  const bytes = new Uint8Array(size);
  for (let at = 0, rest = value; at < size; at += 1, rest >>>= 8) bytes[at] = rest & 255;
  return hexOf(bytes, 0, size);
}

/** @param {number} kind @param {number | bigint} raw without a sign @returns {number | bigint} as the kind has it */
function elementOf(kind, raw) {
  const bits = 8 * SIZES[kind];
  const isSigned = /^(Big)?Int/.test(SCRIPT_KINDS[kind]);
  if (typeof raw === "bigint") return isSigned ? BigInt.asIntN(bits, raw) : raw;
  return isSigned ? Number(BigInt.asIntN(bits, BigInt(raw))) : raw;
}

/** @param {number | bigint} value */
const operandText = (value) => (typeof value === "bigint" ? `${value}n` : `${value}`);

/** @param {number | bigint} value @returns {number | string} as a call in JSON has it */
const operandData = (value) => (typeof value === "bigint" ? `${value}` : value);

/**
 * @typedef {object} ViewData
 * @property {string} name
 * @property {string} kind
 * @property {number} block
 * @property {number} offset
 * @property {number | null} length
 */

/** The arrays on which calls are made, each once. */
export class AutomatonViews {
  constructor() {
    /** @type {Map<string, ViewData>} */
    this.all = new Map();
  }

  /** @param {Node} node a call @returns {string} the name of its view */
  nameOf({ kind, block, outside }) {
    const { offset, length } = outside ?? { offset: 0, length: null };
    const parts = [SCRIPT_KINDS[kind], block, ...(outside === undefined ? [] : [offset, length])];
    const name = parts.join("_");
    this.all.set(name, { name, kind: SCRIPT_KINDS[kind], block, offset, length });
    return name;
  }
}

/** @param {Node} node a call @param {AutomatonViews} views @returns {(string | number)[]} */
export function callData(node, views) {
  const { does, size, byte, operands, limit, outside } = node;
  const index = outside === undefined ? byte / size : outside.index;
  const call = [CALLS[does].name, views.nameOf(node), index, ...operands.map(operandData)];
  return limit === undefined ? call : [...call, limit];
}

/** @param {Node} node @returns {string} in words, for messages */
export function nodeText(node) {
  if (node.does === DOES.FINISHED) return "ends";
  if (node.does === DOES.THREW) return `throws ${node.text}`;
  if (isCall(node)) return JSON.stringify(callData(node, new AutomatonViews()));
  if (isChoice(node)) return askedText(choiceOf(/** @type {number} */ (node.limit), 0));
  if (node.does === DOES.BEGINS) return `begins the call ${node.limit} of its operations`;
  if (node.does === DOES.ENDS) return `ends an operation, which ${node.text}`;
  const { block, byte, size, written } = node;
  const bytes = `${size} bytes of block ${block} from byte ${byte} on`;
  return written === undefined ? `reads ${bytes}` : `writes ${hexOf(written, 0, size)} to ${bytes}`;
}
