// The calls of one agent in a run and their answers, in shared memory. The agent writes them as they are made, and the
// referee reads them at the run's end.

import { CALLS, CALL_NUMBERS } from "../../script/kinds.mjs";
import { SCRIPT_LIMITS } from "../../script/limits.mjs";
import { answerText } from "../../script/report.mjs";
import { positionIn } from "../primordials.mjs";

// Agents may change what they find, so the engine's own functions are kept here, before.
const { BigInt64Array, Float64Array, Int32Array, SharedArrayBuffer } = globalThis;
const { asIntN, asUintN } = BigInt;

/**
 * @typedef {object} Call a call that an agent asks for
 * @property {number} call its number in `CALLS`
 * @property {number} kind the number of its view's kind
 * @property {number} block the position of the buffer that its view is on
 * @property {number} offset the byte at which its view begins
 * @property {number} length how many elements its view has
 * @property {number} index
 * @property {number} [bytes] how many bytes its places have, for strategies, if it touches more than one element
 * @property {(number | bigint)[]} operands
 * @property {number | undefined} limit the timeout of a wait, or the count of a notify
 * @property {number} [milliseconds] the timeout of a wait that has one, with its fraction; it isn't recorded
 * @property {number | bigint} [returns] what the code gets of a store whose operand no script can hold; it isn't
 * recorded
 */

/** What a call can return besides a value, as a report spells it. A word's position is its number in a record. */
const WORDS = Object.freeze(["ok", "not-equal", "timed-out", "TypeError", "RangeError"]);

const { load: LOAD } = CALL_NUMBERS;

const NONE = 0;
const NUMBER = 1;
const BIG = 2;
const FIRST_WORD = 3;

// A record's place in each of its three arrays: words, numbers, and BigInts of 128 bits in two halves.
const WORDS_EACH = 12;
const NUMBERS_EACH = 5;
const BIGS_EACH = 6;
const BYTES_EACH = WORDS_EACH * 4 + (NUMBERS_EACH + BIGS_EACH) * 8;

const CALL = 0;
const KIND = 1;
const BLOCK = 2;
const OFFSET = 3;
const LENGTH = 4;
const TAGS = 5; // and 6
const ANSWER = 7;
const HAS_LIMIT = 8;
const JOINED = 9;
const MOST_OPERANDS = 2;

/** If the last so many calls each come again within so few, they are a spin. */
export const SPIN_CALLS = 300;
const SPIN_LENGTH = 6;

const ANSWER_VALUE = 2;
const INDEX = 3;
const LIMIT = 4;

/** How many whole numbers of 32 bits say which call it is, and what it returned. */
export const FINGERPRINT = 11;

/** @param {number} value @returns {boolean} whether it is a whole number of 32 bits */
const isShort = (value) => (value | 0) === value;

export class Records {
  /** @param {number} [calls] how many there is room for: all that an agent can make @returns {SharedArrayBuffer} */
  static memory(calls = SCRIPT_LIMITS.calls) {
    return new SharedArrayBuffer(calls * BYTES_EACH);
  }

  /** @param {number} calls @returns {number} how many bytes their records take: a multiple of 8 */
  static bytesOf(calls) {
    return calls * BYTES_EACH;
  }

  /**
   * @param {ArrayBufferLike} memory
   * @param {number} [from] the byte at which the records begin: a multiple of 8
   * @param {number} [calls] how many there is room for; as many as the memory has room for, if it isn't given
   */
  constructor(memory, from = 0, calls = (memory.byteLength - from) / BYTES_EACH) {
    this.bigs = new BigInt64Array(memory, from, calls * BIGS_EACH);
    this.numbers = new Float64Array(memory, from + this.bigs.byteLength, calls * NUMBERS_EACH);
    this.words = new Int32Array(memory, from + this.bigs.byteLength + this.numbers.byteLength, calls * WORDS_EACH);
  }

  /** @param {number} position of the call among the agent's @param {Call} call that begins */
  begin(position, call) {
    const { words, numbers } = this;
    const word = position * WORDS_EACH;
    const number = position * NUMBERS_EACH;
    words[word + CALL] = call.call;
    words[word + KIND] = call.kind;
    words[word + BLOCK] = call.block;
    words[word + OFFSET] = call.offset;
    words[word + LENGTH] = call.length;
    words[word + ANSWER] = NONE;
    words[word + JOINED] = 0;
    words[word + HAS_LIMIT] = call.limit === undefined ? 0 : 1;
    numbers[number + INDEX] = call.index;
    numbers[number + LIMIT] = call.limit ?? 0;
    for (let at = 0; at < call.operands.length; at += 1) {
      words[word + TAGS + at] = this.#write(position, at, call.operands[at]);
    }
  }

  /**
   * Whether the calls before a position are few that come again and again: a spin.
   * @param {number} position
   * @returns {boolean}
   */
  endsAlike(position) {
    if (position < SPIN_CALLS) return false;
    for (let at = position - SPIN_CALLS; at < position - SPIN_LENGTH; at += 1) {
      let again = 1;
      while (again <= SPIN_LENGTH && !this.#isAlike(at, at + again)) again += 1;
      if (again > SPIN_LENGTH) return false;
    }
    return true;
  }

  /**
   * Whether a call is the same as one of the few before it, and returned the same.
   * @param {number} position
   * @returns {boolean}
   */
  comesAgain(position) {
    for (let at = position - 1; at >= 0 && at >= position - SPIN_LENGTH; at -= 1) {
      if (this.#isAlike(at, position) && this.#isAnsweredAlike(at, position)) return true;
    }
    return false;
  }

  /** @param {number} position of a wait that joins the line */
  join(position) {
    this.words[position * WORDS_EACH + JOINED] = 1;
  }

  /** @param {number} position @param {number | bigint | string} answer a value, or one of the words of a report */
  answer(position, answer) {
    const tag = typeof answer === "string"
      ? FIRST_WORD + positionIn(WORDS, answer)
      : this.#write(position, ANSWER_VALUE, answer);
    this.words[position * WORDS_EACH + ANSWER] = tag;
  }

  /** @param {number} position @returns {Call} */
  callAt(position) {
    const { words, numbers } = this;
    const word = position * WORDS_EACH;
    const number = position * NUMBERS_EACH;
    const operands = [];
    for (let at = 0; at < CALLS[words[word + CALL]].operands; at += 1) {
      operands.push(this.#read(position, at, words[word + TAGS + at]));
    }
    return {
      call: words[word + CALL],
      kind: words[word + KIND],
      block: words[word + BLOCK],
      offset: words[word + OFFSET],
      length: words[word + LENGTH],
      index: numbers[number + INDEX],
      operands,
      limit: words[word + HAS_LIMIT] === 0 ? undefined : numbers[number + LIMIT],
    };
  }

  /**
   * @param {number} position
   * @returns {{ joined: boolean, answer: string | null }} the answer as a report spells it, or none yet
   */
  doneAt(position) {
    const tag = this.words[position * WORDS_EACH + ANSWER];
    return { joined: this.words[position * WORDS_EACH + JOINED] === 1, answer: this.#spelled(position, tag) };
  }

  /**
   * Writes down which call it is, and what it returned. Calls with equal fingerprints have the same texts.
   * @param {number} position
   * @param {Int32Array} into
   * @returns {boolean} false for a BigInt and for a number that isn't whole or has more than 32 bits: then there is no
   * fingerprint
   */
  takeFingerprint(position, into) {
    const { words, numbers } = this;
    const word = position * WORDS_EACH;
    const number = position * NUMBERS_EACH;
    for (let at = CALL; at <= LENGTH; at += 1) into[at] = words[word + at];
    const { operands } = CALLS[words[word + CALL]];
    for (let at = 0; at < MOST_OPERANDS; at += 1) {
      const value = at < operands ? numbers[number + at] : 0;
      if (at < operands && (words[word + TAGS + at] !== NUMBER || !isShort(value))) return false;
      into[TAGS + at] = value;
    }
    const tag = words[word + ANSWER];
    const limit = words[word + HAS_LIMIT] === 0 ? 0 : numbers[number + LIMIT];
    const answer = tag === NUMBER ? numbers[number + ANSWER_VALUE] : 0;
    const index = numbers[number + INDEX];
    if (tag === BIG || !isShort(limit) || !isShort(answer) || !isShort(index)) return false;
    into[7] = index;
    into[8] = (tag << 2) | (words[word + HAS_LIMIT] << 1) | words[word + JOINED];
    into[9] = limit;
    into[10] = answer;
    return true;
  }

  /** @param {Records} into which as many are copied as fit */
  copyTo({ bigs, numbers, words }) {
    bigs.set(this.bigs.subarray(0, bigs.length));
    numbers.set(this.numbers.subarray(0, numbers.length));
    words.set(this.words.subarray(0, words.length));
  }

  /**
   * Whether two calls are the same function on the same element, with the same result. A load may find something else
   * each time; an agent that writes and gets another answer makes progress.
   * @param {number} one
   * @param {number} other
   */
  #isAlike(one, other) {
    const { words, numbers } = this;
    for (let word = CALL; word <= LENGTH; word += 1) {
      if (words[one * WORDS_EACH + word] !== words[other * WORDS_EACH + word]) return false;
    }
    if (numbers[one * NUMBERS_EACH + INDEX] !== numbers[other * NUMBERS_EACH + INDEX]) return false;
    return words[one * WORDS_EACH + CALL] === LOAD || this.#isAnsweredAlike(one, other);
  }

  /** @param {number} one @param {number} other */
  #isAnsweredAlike(one, other) {
    const tag = this.words[one * WORDS_EACH + ANSWER];
    if (tag !== this.words[other * WORDS_EACH + ANSWER]) return false;
    if (tag !== NUMBER && tag !== BIG) return true;
    return this.#read(one, ANSWER_VALUE, tag) === this.#read(other, ANSWER_VALUE, tag);
  }

  /** @param {number} position @param {number} tag @returns {string | null} */
  #spelled(position, tag) {
    if (tag === NONE) return null;
    if (tag >= FIRST_WORD) return WORDS[tag - FIRST_WORD];
    return answerText(this.#read(position, ANSWER_VALUE, tag));
  }

  /**
   * @param {number} position
   * @param {number} at which value of the record
   * @param {number | bigint} value
   * @returns {number} its tag
   */
  #write(position, at, value) {
    if (typeof value === "number") {
      this.numbers[position * NUMBERS_EACH + at] = value;
      return NUMBER;
    }
    const big = position * BIGS_EACH + 2 * at;
    this.bigs[big] = asIntN(64, value);
    this.bigs[big + 1] = value >> 64n;
    return BIG;
  }

  /** @param {number} position @param {number} at @param {number} tag @returns {number | bigint} */
  #read(position, at, tag) {
    if (tag === NUMBER) return this.numbers[position * NUMBERS_EACH + at];
    const big = position * BIGS_EACH + 2 * at;
    return (this.bigs[big + 1] << 64n) | asUintN(64, this.bigs[big]);
  }
}
