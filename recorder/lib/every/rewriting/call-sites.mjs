// What a function can still read at a place of its text at which it has called something: names, and values that are
// kept in its frame. A place of which that isn't known says why.

import { positionOutsideComments } from "./comments.mjs";
import { aliveIn } from "./live.mjs";
import { isConstant, isFunction } from "./tree.mjs";

/** @typedef {import("./tree.mjs").Tree} Tree */
/** @typedef {import("./scopes.mjs").Info} Info */
/** @typedef {import("./scopes.mjs").Binding} Binding */

/**
 * @typedef {object} CallSite
 * @property {string} [unknown] why what is kept there can't be shown
 * @property {number} fn the number of the function
 * @property {boolean} makes whether it is a constructor
 * @property {[number, number][]} alive scopes and positions of the names that can still be read
 * @property {number[]} kept the values that are kept in the frame
 * @property {boolean} isAccess whether only a getter, a setter or their like can have been called there
 * @property {boolean} isKeyed whether a key may have been made a text there before that
 * @property {boolean} isNamed whether nothing is called there except for members that the code names: no value is made
 * a number or a text
 * @property {boolean} isAccessor whether the function is written as a getter or a setter
 * @property {boolean} [isBeginning] whether it is a constructor that has no frame yet
 * @property {StepTarget} [step] what gets the value of the step of a loop that is made there; nothing else is
 */

/** @typedef {"StepToName" | "StepToPattern"} StepTarget */

/** What can be going on at a place while something that it called runs. */
const CALLERS = new Set([
  "Identifier", "MemberExpression", "CallExpression", "NewExpression", "ThisExpression", "AssignmentExpression",
  "UpdateExpression", "TaggedTemplateExpression", "PrivateIdentifier", "Super", "StepToName", "StepToPattern",
  "NameOfMember", "BeginOfSteps",
]);

/** What calls a getter, a setter, or a trap of a proxy. */
const ACCESSES = new Set(["MemberExpression", "UpdateExpression", "AssignmentExpression", "NameOfMember"]);

/** @type {CallSite} */
const NOTHING = Object.freeze({
  fn: 0, makes: false, alive: [], kept: [], isAccess: false, isKeyed: false, isNamed: false, isAccessor: false,
});

export class CallSites {
  /** @param {import("./analysis.mjs").Analysis} analysis */
  constructor(analysis) {
    this.analysis = analysis;
    /** @type {Map<number, CallSite>} those that were asked for */
    this.known = new Map();
  }

  /** @param {number} offset in the module's text @returns {CallSite} */
  at(offset) {
    let place = this.known.get(offset);
    if (place === undefined) {
      place = this.#judged(offset);
      this.known.set(offset, place);
    }
    return place;
  }

  /** @param {number} offset @returns {CallSite} */
  #judged(offset) {
    const info = this.#functionAt(offset);
    if (info === undefined) return unknown("code at the top level of a module");
    if (info.makes && info.tree.type === "ClassBody" && offset === info.start + 1) return constructorOf(info);
    if (offset === info.beginsAt) return { ...NOTHING, fn: info.id, makes: true, isBeginning: true };
    if (info.isHidden) return unknown("a generator, an async function, a constructor of a derived class or the like");
    const begins = info.declared[0] ?? info.tree.body;
    // Its frame begins behind them.
    if (isFunction(info.tree) && offset < begins.start) return unknown("a parameter that gets its value");
    // A place around all of a function is one of the function outside.
    const isHidden = this.analysis.hidden.some(([from, to]) =>
      from <= offset && offset < to && !(from <= info.start && info.end <= to));
    if (isHidden) return unknown("a place with values that aren't shown");
    if (info.usesSuper) return unknown("a method of an object in a function, with `super`");
    const { alive, isAccess, isKeyed, isNamed, step } = this.#aliveAt(info, offset);
    if (typeof alive === "string") return unknown(`a call by ${alive}`);
    for (const one of info.needed) alive.add(one);
    const shown = [...alive].filter(({ isShown }) => isShown);
    const kept = info.temporaries.filter(({ from, to }) => from <= offset && offset < to);
    return {
      fn: info.id, makes: info.makes, kept: kept.map(({ id }) => id), isAccess, isKeyed, isNamed,
      isAccessor: info.isAccessor, step,
      alive: shown.map(placeOf).sort(([a, b], [c, d]) => a - c || b - d),
    };
  }

  /** @param {number} offset @returns {Info | undefined} the innermost function */
  #functionAt(offset) {
    const around = this.analysis.functions.filter(({ start, end }) => start <= offset && offset < end);
    return around.sort((one, other) => other.start - one.start || one.end - other.end)[0];
  }

  /**
   * @param {Info} info
   * @param {number} offset
   * @returns {{ alive: Set<Binding> | string, isAccess: boolean, isKeyed: boolean, isNamed: boolean,
   * step?: StepTarget }} what is alive after the calls that can be going on there, or what it is instead
   */
  #aliveAt(info, offset) {
    info.alive ??= /** @type {Map<Tree, Set<Binding>>} */ (aliveIn(info, this.analysis));
    /** @type {Set<Binding>} */
    const alive = new Set();
    /** @type {Tree | undefined} */
    let least;
    let isCall = false;
    let isAccess = true;
    let isKeyed = false;
    let isNamed = true;
    /** @type {StepTarget | undefined} */
    let step;
    for (const [tree, out] of info.alive) {
      // The end as well: a call that was rewritten begins where its callee ends.
      if (tree.start > offset || offset > tree.end) continue;
      if (canCallAt(tree, offset, this.analysis.source)) {
        isCall = true;
        isAccess &&= ACCESSES.has(tree.type);
        isNamed &&= reachesByName(tree);
        for (const one of out) alive.add(one);
      }
      isKeyed ||= makesKey(tree, offset);
      if (isStep(tree) && offset < tree.end) step = tree.type;
      if (offset < tree.end && (least === undefined || tree.end - tree.start <= least.end - least.start)) least = tree;
    }
    const isCaller = least === undefined || CALLERS.has(least.type);
    const other = isCaller ? "something that isn't known" : /** @type {Tree} */ (least).type;
    return { alive: isCaller && isCall ? alive : other, isAccess, isKeyed, isNamed, step };
  }
}

/** @param {Tree} tree @returns {boolean} */
const isStep = ({ type }) => type === "StepToName" || type === "StepToPattern";

/**
 * @param {Tree} tree
 * @param {number} offset
 * @param {string} source
 * @returns {boolean} whether what it calls may be going on at a place in it
 */
function canCallAt(tree, offset, source) {
  switch (tree.type) {
    case "CallExpression": {
      const { callee } = tree;
      return firstOfCall(callee) <= offset && offset <= positionOutsideComments(source, "(", callee.end);
    }
    case "NewExpression": return offset <= tree.callee.end;
    case "TaggedTemplateExpression": return offset <= tree.tag.end;
    case "MemberExpression": case "UpdateExpression": return true;
    case "SpreadElement": return offset === tree.argument.start;
    case "StepToName": case "StepToPattern": return offset < tree.end;
    case "BeginOfSteps": case "NameOfMember": return offset === tree.start;
    case "AssignmentExpression": return offset < tree.right.start;
    default: return false;
  }
}

/**
 * The first place at which the engine says that it is called. What is neither a name nor a member is called at the
 * parenthesis of its arguments.
 * @param {Tree} callee
 * @returns {number}
 */
function firstOfCall({ type, computed, property, start, end }) {
  if (type === "Identifier" || type === "Super") return start;
  return type === "MemberExpression" && !computed ? property.start : end;
}

/**
 * Whether it may make a key a text at a place in it. If a member is read and written, or deleted, the engine says that
 * it does so at the place of a call in the key.
 * @param {Tree} tree
 * @param {number} offset
 */
function makesKey({ type, argument, end, left, right, object, operator, computed, property }, offset) {
  if (offset >= end) return false;
  if (type === "MemberExpression") {
    return computed && !isConstant(property) && object.end <= offset && offset < property.start;
  }
  const isTarget = type === "AssignmentExpression" || type === "UpdateExpression" || operator === "delete";
  const target = isTarget ? left ?? argument : undefined;
  if (target?.type !== "MemberExpression" || !target.computed || isConstant(target.property)) return false;
  if (type !== "AssignmentExpression") return true;
  return offset < right.start && (operator !== "=" || left.end <= offset);
}

/**
 * What gets the length of an array is made a number.
 * @param {Tree} tree
 * @returns {boolean} whether it reads or writes a member that it names, and makes nothing of what it reads or writes
 */
function reachesByName({ type, left, computed, property }) {
  if (type === "NameOfMember") return true;
  if (type === "MemberExpression") return !computed && property.name !== "length";
  return type === "AssignmentExpression" && left.type === "MemberExpression" && reachesByName(left);
}

/** @param {Binding} binding @returns {[number, number]} */
const placeOf = ({ scope, index }) => [scope.id, index];

/**
 * The constructor that a derived class has by itself stands where its braces begin. It has nothing more to read.
 * @param {Info} info of the class
 * @returns {CallSite}
 */
const constructorOf = ({ id }) =>
  ({ ...NOTHING, fn: id, makes: true });

/** @param {string} why @returns {CallSite} */
const unknown = (why) => ({ ...NOTHING, unknown: why });
