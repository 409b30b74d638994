// How the engine names what it was to call, in the message of an error: a name that isn't a function is called only
// after its arguments were evaluated.

import { childrenOf } from "./tree.mjs";

/** @typedef {import("./tree.mjs").Tree} Tree */

const NAMELESS = () => "(intermediate value)";

/** The names that rewritten code has, in a text. Modules that have such a name are refused. */
export const OWN_NAMES = /\$(?:R|m|f|i|o|x|[enkp]\d+|default)\b/;
const IS_OWN_NAME = new RegExp(`^${OWN_NAMES.source}$`);

/** If something with this name isn't a function, the agent is refused: its own name isn't known. */
const NOT_KNOWN = "$R";

/** @type {Record<string, (tree: Tree) => string>} by the types of trees */
const NAMES = {
  ArrowFunctionExpression: NAMELESS,
  CallExpression: ({ callee }) => `${engineName(callee)}(...)`,
  ClassExpression: NAMELESS,
  FunctionExpression: NAMELESS,
  Identifier: ({ name }) => name,
  Literal: ({ value, bigint }) => {
    if (bigint !== undefined) return NAMELESS();
    return typeof value === "string" ? `"${value}"` : `${value}`;
  },
  MemberExpression: ({ object, property, computed }) => {
    if (property.type === "PrivateIdentifier") return `${engineName(object)}[#${property.name}]`;
    const isName = !computed || typeof property.value === "string";
    const key = isName ? `.${property.value ?? property.name}` : `[${engineName(property)}]`;
    return `${engineName(object)}${key}`;
  },
  NewExpression: NAMELESS,
  Super: NAMELESS,
  ThisExpression: () => "this",
};

/** @param {Tree} tree @returns {Tree | undefined} the first name in it that rewritten code has, too */
export function ownNameIn(tree) {
  if (tree.type === "Identifier" && IS_OWN_NAME.test(tree.name)) return tree;
  // The names of members are no names of its own.
  const isMember = /^(?:Member|Property|Method)/.test(tree.type) && !tree.computed;
  const inner = childrenOf(tree).filter((one) => !isMember || (one !== tree.property && one !== tree.key));
  for (const one of isMember && tree.shorthand ? [tree.value] : inner) {
    const found = ownNameIn(one);
    if (found !== undefined) return found;
  }
  return undefined;
}

/** @param {Tree} callee @returns {string} */
export function engineName(callee) {
  return NAMES[callee.type]?.(callee) ?? NOT_KNOWN;
}

/**
 * @param {string} name of a member of an object's literal that has but a name
 * @returns {string} its key if it has a value besides; `__proto__: value` isn't a member, but sets the prototype
 */
export const keyOfShorthand = (name) => (name === "__proto__" ? "[\"__proto__\"]" : name);
