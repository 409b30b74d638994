// What an option may be. Each kind looks at a value, as the library is given it, and at a text of the command line. It
// also has the type that TypeScript has for it, and in words the numbers that it may be.

import { SCRIPT_LIMITS } from "../../script/limits.mjs";
import { NEVER, STRATEGY_WORDS, waysOf } from "../board/strategy/ways.mjs";
import { checkedAgents, checkedBuffers, checkedNoBlock } from "./plan.mjs";
import { Refused } from "./refused.mjs";

/**
 * @typedef {object} OptionKind
 * @property {(value: any, name: string) => any} value what is taken of a value; fails with Refused if it can't be
 * @property {(text: any, name: string) => any} [text] what is taken of a text, or of several if `multiple` is true;
 * without it the command line has the option's name alone
 * @property {boolean} [multiple] whether the command line may give it more than once
 * @property {string} [type] of a value in TypeScript; only the command line has a kind without it
 * @property {string} [range] which numbers it may be, in words
 * @property {readonly string[]} [words] which words it may be
 */

/**
 * A kind by what holds of its values.
 * @param {string} type of a value in TypeScript
 * @param {(value: any) => boolean} holds
 * @param {string} must what a value must be
 * @param {(text: string) => unknown} [valueOf] what a text stands for; itself, if it isn't given
 * @returns {OptionKind & { text: NonNullable<OptionKind["text"]> }}
 */
function that(type, holds, must, valueOf = (text) => text) {
  /** @type {(value: unknown, name: string, given: unknown) => any} */
  const checked = (value, name, given) => {
    if (holds(value)) return value;
    throw new Refused(`${name} must be ${must}${typeof given === "string" ? `, but is "${given}"` : ""}`);
  };
  return {
    type,
    value: (value, name) => checked(value, name, value),
    text: (text, name) => checked(valueOf(text), name, text),
  };
}

/**
 * A kind of numbers: a text is one if it is spelled so.
 * @param {RegExp} spelling
 * @param {(value: number) => boolean} holds
 * @param {string} must
 */
const number = (spelling, holds, must) => {
  const isRight = (/** @type {unknown} */ value) => typeof value === "number" && holds(value);
  return { ...that("number", isRight, must, (text) => (spelling.test(text) ? Number(text) : NaN)), range: must };
};

const DECIMAL = /^[0-9]+(\.[0-9]+)?$/;

/** @param {number} least @param {number} most */
export const whole = (least, most) => number(
  /^[0-9]+$/, (value) => Number.isInteger(value) && value >= least && value <= most,
  `a whole number from ${least} to ${most === Number.MAX_SAFE_INTEGER ? "2^53 - 1" : most}`,
);

/** So many operations of an object an agent makes in a run at most. */
const MOST_OPERATIONS = 1_000;

export const SEED = whole(0, Number.MAX_SAFE_INTEGER);

/** @param {unknown} value */
const isPartOrNever = (value) => value === NEVER || (typeof value === "number" && value >= 0 && value <= 1);
const PART = `a number from 0 to 1, or ${NEVER}`;
/** @type {OptionKind} */
export const PART_OR_NEVER = {
  ...that(`number | "${NEVER}"`, isPartOrNever, PART, (text) => (DECIMAL.test(text) ? Number(text) : text)),
  range: PART,
};

/** @param {number} most */
export const above0 = (most) =>
  number(DECIMAL, (value) => value > 0 && value <= most, `a number above 0, and ${most} at most`);

/** @param {number} most */
export const upTo = (most) => number(DECIMAL, (value) => value >= 0 && value <= most, `a number from 0 to ${most}`);

/** @param {unknown} value */
const isName = (value) => typeof value === "string" && value !== "";

/** @param {string} what it names */
export const named = (what) => that("string", isName, what);

/** @type {OptionKind} */
export const BOOLEAN = { ...that("boolean", (value) => typeof value === "boolean", "true or false"), text: undefined };

const isPathOrUrl = (/** @type {unknown} */ value) => isName(value) || value instanceof URL;
export const PATH_OR_URL = that("string | ModuleUrl", isPathOrUrl, "a path or a URL");
const isProgram = (/** @type {unknown} */ value) => typeof value === "boolean" || isName(value);
/** @type {OptionKind} */
export const PROGRAM = { ...that("string | boolean", isProgram, "a path, true or false"), text: (text) => text };
export const FUNCTION = that("WithBuffers", (value) => typeof value === "function", "a function");
export const SIGNAL = that("StopSignal", (value) => value instanceof AbortSignal, "an AbortSignal");

/** @param {readonly string[]} words */
const wordsText = (words) => `${words.slice(0, -1).join(", ")} or ${words.at(-1)}`;

/** @param {string} word one of a choice; P at its end stands for a number @returns {string} its type */
const typeOf = (word) => (word.endsWith(":P") ? `\`${word.slice(0, -1)}\${number}\`` : `"${word}"`);

/** @param {readonly string[]} words @returns {string} */
const typeOfAny = (words) => words.map(typeOf).join(" | ");

/** @param {readonly string[]} words */
export const choice = (words) => ({
  ...that(typeOfAny(words), (value) => words.includes(value), wordsText(words)), words,
});

const isStrategy = (/** @type {unknown} */ value) => typeof value === "string" && waysOf(value, false).length > 0;
/** @type {OptionKind} */
export const STRATEGY = {
  ...that(typeOfAny(STRATEGY_WORDS), isStrategy, `${wordsText(STRATEGY_WORDS)}, with P from 0 to 1`),
  words: STRATEGY_WORDS,
};

/** @param {unknown} value */
const areStrings = (value) => Array.isArray(value) && Array.from(value).every((each) => typeof each === "string");
const STRINGS = that("string[]", areStrings, "an array of strings");

/** @type {OptionKind} */
export const WORDS = { type: STRINGS.type, value: (value, name) => [...STRINGS.value(value, name)] };

/** @type {OptionKind} */
export const AGENTS = { ...whole(1, SCRIPT_LIMITS.agents), value: checkedAgents };

const isCountOrAny = (/** @type {unknown} */ value) =>
  value === "any" || (Number.isInteger(value) && Number(value) >= 1 && Number(value) <= MOST_OPERATIONS);
const COUNT_OR_ANY = `a whole number from 1 to ${MOST_OPERATIONS}, or any`;
/** @type {OptionKind} */
export const OPERATIONS_OR_ANY = {
  ...that('number | "any"', isCountOrAny, COUNT_OR_ANY, (text) => (/^[0-9]+$/.test(text) ? Number(text) : text)),
  range: COUNT_OR_ANY,
};

const BYTES = whole(0, SCRIPT_LIMITS.bytes);
const AGENT = whole(0, SCRIPT_LIMITS.agents - 1);

/** @type {OptionKind} */
export const BUFFERS = {
  type: "number[]",
  range: `each ${BYTES.range}`,
  value: checkedBuffers,
  text: (text, name) => checkedBuffers(text.split(",").map((/** @type {string} */ each) => BYTES.text(each, name))),
};

/** @type {OptionKind} */
export const AGENTS_THAT_CANT = {
  type: "number[]",
  range: `each ${AGENT.range}`,
  value: checkedNoBlock,
  text: (texts, name) => texts.map((/** @type {string} */ each) => AGENT.text(each, name)),
  multiple: true,
};

/** @param {unknown} value */
function givenRange(value) {
  if (typeof value === "number") return { first: 1, last: value };
  if (typeof value !== "string") return value;
  const found = /^([0-9]+)(?:\.\.([0-9]+))?$/.exec(value);
  return found === null ? undefined : { first: Number(found[1]), last: Number(found[2] ?? found[1]) };
}

/** @type {OptionKind} */
export const SEEDS = {
  type: "string | number | { first: number; last: number }",
  value(value, name) {
    const { first, last } = /** @type {any} */ (givenRange(value) ?? {});
    if ([first, last].every((seed) => Number.isSafeInteger(seed) && seed >= 0) && first <= last) return { first, last };
    throw new Refused(`${name} must be as "1..1000", a number (so many, from 1 on), or an object { first, last }`);
  },
  text(text, name) {
    const [from, to = from, more] = text.split("..");
    if (more !== undefined) throw new Refused(`${name} must be A..B or one seed, but is "${text}"`);
    const [first, last] = [SEED.text(from, name), SEED.text(to, name)];
    if (last < first) throw new Refused(`${name} ${text}: the last seed is before the first`);
    return { first, last };
  },
};

/** @type {OptionKind} */
export const SHARD = {
  value: (value) => value,
  text(text, name) {
    const [, shard, of] = (/^([0-9]+)\/([0-9]+)$/.exec(text) ?? []).map(Number);
    if (shard >= 1 && shard <= of && Number.isSafeInteger(of)) return { number: shard, of };
    throw new Refused(`${name} must be K/N, as 2/4, with K from 1 to N, but is "${text}"`);
  },
};
