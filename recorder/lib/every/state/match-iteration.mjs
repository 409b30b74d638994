// Stands for the engine's iterator of what a regular expression finds in a text, as `matchAll` returns it.

import { types } from "node:util";
import { apply, construct, getPrototypeOf, isObject, ownKeys, uncurried } from "../../primordials.mjs";

const { isProxy, isRegExp } = types;
const { RegExp: EngineRegExp } = globalThis;
const { prototype: regExps } = EngineRegExp;
const exec = uncurried(regExps.exec);
const includes = uncurried(String.prototype.includes);
const codePointAt = uncurried(String.prototype.codePointAt);

/** What such iterators of the engine inherit from. */
export const ofMatches = /** @type {any} */ (getPrototypeOf("".matchAll(/./g)));
const { next: nextOfMatches } = ofMatches;

export class MatchIteration {
  /** @type {RegExp} one that nothing else has */
  #matcher;

  /** @type {string} */
  #text;

  /** @type {string} */
  #flags;

  #isDone = false;

  /** @param {RegExp} matcher @param {string} text @param {string} flags */
  constructor(matcher, text, flags) {
    this.#matcher = matcher;
    this.#text = text;
    this.#flags = flags;
  }

  /** @param {object} object @returns {import("./shown-iterators.mjs").Iteration | undefined} */
  static of(object) {
    if (!(#matcher in object)) return undefined;
    const iteration = /** @type {MatchIteration} */ (object);
    return { kind: "matches", of: iteration.#isDone ? undefined : [iteration.#matcher, iteration.#text], at: 0 };
  }

  next() {
    if (!isObject(this) || !(#matcher in this)) return apply(nextOfMatches, this, []);
    const match = this.#isDone ? null : exec(this.#matcher, this.#text);
    if (match === null || !includes(this.#flags, "g")) this.#isDone = true;
    if (match === null) return { value: undefined, done: true };
    if (!this.#isDone && match[0] === "") this.#advance();
    return { value: match, done: false };
  }

  /** Nothing was found at a place: the next one is behind it. */
  #advance() {
    const matcher = this.#matcher;
    const isUnicode = includes(this.#flags, "u") || includes(this.#flags, "v");
    const isPair = isUnicode && codePointAt(this.#text, matcher.lastIndex) > 0xffff;
    matcher.lastIndex += isPair ? 2 : 1;
  }
}

/** @param {any} self @returns {boolean} whether it is a regular expression that nothing was put into */
const isPlain = (self) => isObject(self) && !isProxy(self) && isRegExp(self) && getPrototypeOf(self) === regExps
  && ownKeys(self).length === 1 && typeof self.lastIndex === "number";

/**
 * @param {any} self
 * @param {unknown} text
 * @returns {MatchIteration | undefined} undefined: the engine is to make one, since code of the agents may take part
 */
export function matchesIn(self, text) {
  if (!isPlain(self)) return undefined;
  const given = `${text}`;
  const { flags, lastIndex } = self;
  const matcher = /** @type {any} */ (construct(EngineRegExp, [self, flags]));
  matcher.lastIndex = lastIndex;
  return new MatchIteration(matcher, given, flags);
}
