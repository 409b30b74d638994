// The nodes of automata. A node is what an agent asks for next: a call of Atomics, an ordinary read or write, a choice,
// or its end. Edges lead on by what it is answered.

import { numbersOf } from "../../../script/choices.mjs";
import { CALLS, CALL_NUMBERS } from "../../../script/kinds.mjs";

const { load: LOAD, store: STORE, wait: WAIT, notify: NOTIFY, compareExchange: COMPARE_EXCHANGE } = CALL_NUMBERS;

/** What a node does: the number of its call in `CALLS`, or one of these. */
export const DOES = Object.freeze({
  LOAD, STORE, COMPARE_EXCHANGE, WAIT, NOTIFY, ADD: CALL_NUMBERS.add, SUB: CALL_NUMBERS.sub, AND: CALL_NUMBERS.and,
  OR: CALL_NUMBERS.or, XOR: CALL_NUMBERS.xor, EXCHANGE: CALL_NUMBERS.exchange,
  READ: CALLS.length, WRITE: CALLS.length + 1, CHOOSE: CALLS.length + 2, BEGINS: CALLS.length + 3,
  ENDS: CALLS.length + 4, FINISHED: CALLS.length + 5, THREW: CALLS.length + 6,
});

/** The answers of a wait, as edges have them. */
export const OK = 0;
export const NOT_EQUAL = 1;
export const TIMED_OUT = 2;

/** The answer of what is answered nothing: a store, a write or a mark. */
export const DONE = 0;

/**
 * What an edge goes by. Of a call that reads an element: its bytes as a Number without a sign, or as a BigInt if there
 * are eight; of a read of 1, 2 or 4 bytes the same; of another read its bytes in hexadecimal digits; of a notify its
 * count; of a wait one of the numbers above; of a choice the number that is chosen; of a call that throws the error's
 * name.
 * @typedef {number | bigint | string} Answer
 */

/**
 * @typedef {object} Node
 * @property {number} id its number among the nodes of all automata
 * @property {number} automaton the position of its automaton
 * @property {number} does one of `DOES`, or another number of `CALLS`
 * @property {number} kind the number of the kind of its array; of a read as `WatchedPlace` has it; of all else 0
 * @property {number} block
 * @property {number} byte its first byte in that block
 * @property {number} size how many bytes it touches
 * @property {number} at its first byte in the bytes of all blocks
 * @property {(number | bigint)[]} operands as the code gave them
 * @property {(number | bigint)[]} raw the same as elements, without a sign
 * @property {number | undefined} limit the timeout of a wait in whole milliseconds, the count of a notify, what a
 * choice asks, as `askedOf` has it, or which call of an object begins
 * @property {number | undefined} milliseconds the timeout of a wait, with its fraction: so far a clock goes on by it
 * @property {string | undefined} error what the call throws wherever it is made
 * @property {{ offset: number, length: number, index: number } | undefined} outside of a call that is at no element of
 * its array: what its array is, and the index
 * @property {number | bigint | undefined} returns what a store returns, if no script can have its operand
 * @property {Uint8Array | undefined} written by a write
 * @property {boolean} isAlone whether it is a read that is an act of its own, or the end of an operation without an act
 * @property {string | undefined} text that it threw, which random numbers a choice is among, or how an operation ends
 * @property {Map<Answer, Node>} edges
 */

/** @param {Partial<Node> & Pick<Node, "id" | "automaton" | "does">} given @returns {Node} with what isn't given */
export const nodeOf = (given) => ({
  kind: 0, block: 0, byte: 0, size: 0, at: 0, operands: [], raw: [], limit: undefined, milliseconds: undefined,
  error: undefined, outside: undefined, returns: undefined, written: undefined, isAlone: false, text: undefined,
  edges: new Map(), ...given,
});

/** @param {Node} node @returns {boolean} whether it is a call of Atomics */
export const isCall = ({ does }) => does < DOES.READ;

/** @param {Pick<Node, "does">} node @returns {boolean} whether it is a choice */
export const isChoice = ({ does }) => does === DOES.CHOOSE;

/** @param {Pick<Node, "does">} node @returns {boolean} whether an operation of an object begins or ends there */
export const isMark = ({ does }) => does === DOES.BEGINS || does === DOES.ENDS;

/** @param {Node} node @returns {boolean} whether agents stop there: a call, a choice, or a read or a mark by itself */
export const isOwnAct = (node) => isCall(node) || isChoice(node) || node.isAlone;

/** @param {Node} node @returns {number} how many acts it can be: of a choice as many as there are numbers */
export const actsOf = ({ does, limit }) => (does === DOES.CHOOSE ? numbersOf(/** @type {number} */ (limit)) : 1);

/** @param {Node} node @returns {boolean} whether it is an end */
export const isEnd = ({ does }) => does >= DOES.FINISHED;

/** @param {Node} node @returns {boolean} whether it is an ordinary access or a mark within the act before it */
export const isWithinAct = ({ does, isAlone }) =>
  (does === DOES.READ || does === DOES.WRITE || isMark({ does })) && !isAlone;

/** @param {Node} node @returns {boolean} whether it is a wait that a time can end */
export const isTimed = ({ does, limit }) => does === DOES.WAIT && limit !== undefined;
