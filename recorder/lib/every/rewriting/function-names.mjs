// The names that JavaScript gives to functions and classes without one: those of what they are assigned to.

import { childrenOf, isClass, isFunction, isMethod } from "./tree.mjs";

/** @typedef {import("./tree.mjs").Tree} Tree */

/** The name is that of a key which is only known when the function is made. */
export const NAME_OF_KEY = Symbol("name of a key");

/** @typedef {string | typeof NAME_OF_KEY} FunctionName */

const NAMING = new Set(["=", "||=", "&&=", "??="]);

/** @param {Tree | null | undefined} tree @returns {boolean} whether it is a function or a class without a name */
const isNameless = (tree) => Boolean(tree) && (isFunction(tree) || isClass(tree)) && !tree.id;

/** @param {Tree} target @returns {FunctionName | undefined} */
const ofTarget = ({ type, name }) => (type === "Identifier" ? name : undefined);

/** @param {Tree} tree an assignment, or a pattern with a default @returns {FunctionName | undefined} */
const ofLeft = ({ left, start }) => (left.start === start ? ofTarget(left) : undefined);

/** @param {Tree} member of a class or an object @returns {FunctionName} */
function ofMember({ computed, key }) {
  if (computed) return NAME_OF_KEY;
  if (key.type === "PrivateIdentifier") return `#${key.name}`;
  return String(key.name ?? key.value);
}

/** @type {Record<string, (tree: Tree) => [Tree | null | undefined, FunctionName | undefined]>} by the types of trees */
const NAMED = {
  VariableDeclarator: ({ id, init }) => [init, ofTarget(id)],
  // What stands in parentheses gives no name.
  AssignmentExpression: (tree) => [tree.right, NAMING.has(tree.operator) ? ofLeft(tree) : undefined],
  AssignmentPattern: (tree) => [tree.right, ofLeft(tree)],
  Property: (tree) => {
    const isPrototype = !tree.computed && !tree.shorthand && (tree.key.name ?? tree.key.value) === "__proto__";
    return [tree.value, isMethod(tree) || isPrototype ? undefined : ofMember(tree)];
  },
  PropertyDefinition: (tree) => [tree.value, ofMember(tree)],
  ExportDefaultDeclaration: ({ declaration }) => [declaration, "default"],
};

/** @param {Tree} tree @returns {Map<Tree, FunctionName>} the names of functions and classes in it */
export function namesOfFunctions(tree) {
  /** @type {Map<Tree, FunctionName>} */
  const names = new Map();
  /** @param {Tree} one */
  const take = (one) => {
    const [value, name] = NAMED[one.type]?.(one) ?? [];
    if (name !== undefined && isNameless(value)) names.set(value, name);
    childrenOf(one).forEach(take);
  };
  take(tree);
  return names;
}

/**
 * @param {FunctionName | undefined} name
 * @returns {[string, string]} what stands before and behind a function or a class that gets it
 */
export function givingName(name) {
  if (typeof name !== "string") return ["(", ")"];
  const key = JSON.stringify(name);
  return [`({ [${key}]: (`, `) })[${key}]`];
}
