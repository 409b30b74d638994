// Random numbers by choice, as in all runs of `--all`: the least, one in the middle and the greatest; and long draws of
// bytes, which are never equal to others.

import { mixedWord } from "../memory/random.mjs";
import { Chance } from "./time.mjs";

/** @typedef {import("./time.mjs").RandomElements} RandomElements */

/** The fractions that are drawn: each is below 1. */
export const FRACTIONS = Object.freeze([0, 0.5, 1 - 2 ** -53]);

/** So many bytes or more are never equal to others. */
const UNIQUE_FROM = 8;

/** An odd number, by which the words of a draw differ. */
const STEP = 0x9e3779b1;

const { imul } = Math;

/**
 * @typedef {object} ChanceChoices how an agent chooses what it draws; both return undefined if nobody chooses now, so
 * the seed draws
 * @property {(count: number, what?: string) => number | undefined} choose one of so many numbers, with what is made of
 * it
 * @property {(what: string) => number | undefined} draw a number that no other draw of the run has
 */

export class ChosenChance extends Chance {
  /** @param {ChanceChoices} choices */
  constructor(choices) {
    super();
    this.choices = choices;
  }

  /** @override @param {string} [what] */
  fraction(what) {
    const chosen = this.choices.choose(FRACTIONS.length, what);
    return chosen === undefined ? super.fraction() : FRACTIONS[chosen];
  }

  /** @override @param {Uint8Array} bytes @param {RandomElements} elements */
  fill(bytes, elements) {
    const { length } = bytes;
    if (length === 0) return;
    const what = `${length} bytes`;
    const isUnique = length >= UNIQUE_FROM;
    const chosen = isUnique ? this.choices.draw(what) : this.choices.choose(FRACTIONS.length, what);
    if (chosen === undefined) super.fill(bytes, elements);
    else if (isUnique) fillUnique(bytes, chosen);
    else fillAlike(bytes, elements, chosen);
  }
}

/**
 * Fills bytes so that each four of them differ from the same four of any other draw.
 * @param {Uint8Array} bytes
 * @param {number} number of the draw
 */
function fillUnique(bytes, number) {
  let word = 0;
  for (let at = 0; at < bytes.length; at += 1) {
    if (at % 4 === 0) word = mixedWord(number + imul(at, STEP));
    bytes[at] = word >>> (8 * (at % 4));
  }
}

/** The lower bytes of the least element, of one in the middle and of the greatest, and the highest without a sign. */
const LOWER = [0, 0, 0xff];
const HIGHEST = [0, 0x80, 0xff];
const SIGN = 0x80;

/**
 * Lets each element be the least, one in the middle or the greatest.
 * @param {Uint8Array} bytes
 * @param {RandomElements} elements
 * @param {number} chosen which of these
 */
function fillAlike(bytes, { size, isSigned }, chosen) {
  const highest = HIGHEST[chosen] ^ (isSigned ? SIGN : 0);
  for (let at = 0; at < bytes.length; at += 1) bytes[at] = at % size === size - 1 ? highest : LOWER[chosen];
}
