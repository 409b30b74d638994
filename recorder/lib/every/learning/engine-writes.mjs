// Functions of the engine that change an object: they refuse the objects of the language and of node, as rewritten
// assignments do. They look as the engine's own.

import nodeUtil from "node:util";
import { methodOf, replace, replaceEach } from "../../agent/ordinary/patch.mjs";
import {
  apply, construct, defineProperty, getOwnPropertyDescriptor, likeEngine, proxyOf,
} from "../../primordials.mjs";
import { OWN_NAMES } from "../rewriting/naming.mjs";
import { takesAccessor } from "../state/installed.mjs";
import { own } from "../state/own-objects.mjs";

/** @type {any} */
const util = nodeUtil;

/** What ends the text of the engine's own functions. */
const NATIVE = /\{ \[native code\] \}$/;

/**
 * Functions that change the object that they are given first.
 * @type {[object, string[]][]}
 */
const OF_FIRST = [
  [Object, [
    "assign", "defineProperty", "defineProperties", "freeze", "preventExtensions", "seal", "setPrototypeOf",
  ]],
  [Reflect, ["defineProperty", "deleteProperty", "preventExtensions", "set", "setPrototypeOf"]],
  [Error, ["captureStackTrace"]],
];

/**
 * Methods that change what they are called on.
 * @type {[object, (string | symbol)[]][]}
 */
const OF_SELF = [
  [Array.prototype, ["copyWithin", "fill", "pop", "push", "reverse", "shift", "sort", "splice", "unshift"]],
  [Object.prototype, ["__defineGetter__", "__defineSetter__"]],
  [RegExp.prototype, [Symbol.search]],
];

/** Methods of arrays that change what they return, which a constructor of the agents' own may have made. */
const OF_RESULT = ["concat", "filter", "flat", "flatMap", "map", "slice", "splice"];

/** @type {import("../../agent/ordinary/patch.mjs").StandInMaker} */
const checksFirst = (engine) => methodOf((self, given) => {
  own(given[0]);
  // `Reflect.set` changes its receiver.
  if (given.length > 3) own(given[3]);
  return apply(engine, self, given);
}, engine);

/** @type {import("../../agent/ordinary/patch.mjs").StandInMaker} */
export const checksSelf = (engine) => methodOf((self, given) => apply(engine, own(self), given), engine);

/** @type {import("../../agent/ordinary/patch.mjs").StandInMaker} */
const checksResult = (engine) => methodOf((self, given) => own(apply(engine, self, given)), engine);

/** @param {any} value @returns {boolean} whether `new` takes it: its own code doesn't run */
function isConstructor(value) {
  try {
    construct(proxyOf(value, { construct: () => ({}) }), []);
    return true;
  } catch {
    return false;
  }
}

/**
 * A function that changes what the constructor makes that it is called on.
 * @type {import("../../agent/ordinary/patch.mjs").StandInMaker}
 */
const checksMade = (engine) => methodOf((self, given) => {
  if (self === Array || !isConstructor(self)) return apply(engine, self, given);
  /** @param {unknown[]} words */
  const made = function made(...words) {
    return own(construct(self, words));
  };
  return apply(engine, made, given);
}, engine);

/** @param {any} owner @param {string | symbol} key of an accessor, whose setter changes what it is called on */
function checkSetter(owner, key) {
  const found = owner && getOwnPropertyDescriptor(owner, key);
  if (typeof found?.set !== "function") return;
  found.set = /** @type {(value: unknown) => void} */ (checksSelf(found.set));
  defineProperty(owner, key, found);
}

/**
 * What `JSON.parse` hands to a reviver is changed by the engine itself.
 * @param {Function} engine
 */
const checksRevived = (engine) => methodOf((self, given) => {
  const [text, reviver] = given;
  if (typeof reviver !== "function") return apply(engine, self, given);
  const revived = methodOf((holder, found) => apply(reviver, own(holder), found), reviver);
  return apply(engine, self, [text, revived]);
}, engine);

/**
 * The text of a rewritten function isn't that of the module, and what stands for the engine's own has another one.
 * @param {(what: string) => never} refuse
 */
function hideTexts(refuse) {
  const has = RegExp.prototype.test;
  replace(Function.prototype, "toString", (engine) => methodOf((self, given) => {
    const text = apply(engine, self, given);
    if (apply(has, OWN_NAMES, [text])) refuse("it reads the text of a function");
    if (util.types.isProxy(self) || !apply(has, NATIVE, [text])) own(self, "reads the text of");
    return text;
  }, engine));
}

/**
 * What regular expressions have found last is nowhere to be shown.
 * @param {(what: string) => never} refuse
 */
function hideMatches(refuse) {
  for (const key of Reflect.ownKeys(RegExp)) {
    const found = /** @type {PropertyDescriptor} */ (getOwnPropertyDescriptor(RegExp, key));
    if (found.get === undefined || key === Symbol.species) continue;
    found.get = likeEngine(() => refuse("it reads what a regular expression has found last"), found.get);
    const { set } = found;
    if (set !== undefined) found.set = likeEngine(() => refuse("it sets a member of RegExp"), set);
    defineProperty(RegExp, key, found);
  }
}

/**
 * Puts them in the place of the engine's.
 * @param {(what: string) => never} refuse
 */
export function checkEngineWrites(refuse) {
  hideTexts(refuse);
  hideMatches(refuse);
  for (const [owner, names] of OF_FIRST) replaceEach(owner, names, checksFirst);
  replace(Object.prototype, "__defineGetter__", takesAccessor);
  replace(Object.prototype, "__defineSetter__", takesAccessor);
  for (const [owner, names] of OF_SELF) replaceEach(owner, names, checksSelf);
  replaceEach(Array.prototype, OF_RESULT, checksResult);
  replaceEach(Array, ["from", "of"], checksMade);
  checkSetter(Object.prototype, "__proto__");
  const { Iterator: iterators } = /** @type {any} */ (globalThis);
  for (const key of ["constructor", Symbol.toStringTag]) checkSetter(iterators?.prototype, key);
  replace(JSON, "parse", checksRevived);
  replace(util, "inherits", (engine) => methodOf((self, given) => {
    own(given[0]);
    own(given[0]?.prototype);
    return apply(engine, self, given);
  }, engine));
}
