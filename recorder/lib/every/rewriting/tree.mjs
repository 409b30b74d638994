// Trees of modules, as node's own parser makes them.

/** @typedef {any} Tree a node of ESTree */

/** @param {Tree} tree @returns {boolean} */
export const isFunction = ({ type }) =>
  type === "FunctionDeclaration" || type === "FunctionExpression" || type === "ArrowFunctionExpression";

/** @param {Tree} tree @returns {boolean} */
export const isClass = ({ type }) => type === "ClassDeclaration" || type === "ClassExpression";

/** @param {Tree} tree @returns {boolean} */
export const isPattern = ({ type }) => type === "ArrayPattern" || type === "ObjectPattern";

/** @param {Tree} property of an object's literal @returns {boolean} whether it is a method, a getter or a setter */
export const isMethod = ({ type, method, kind }) => type === "Property" && (method || kind !== "init");

/** @param {Tree} tree @returns {Tree[]} what it has directly in it, in the order of the members */
export function childrenOf(tree) {
  /** @type {Tree[]} */
  const found = [];
  const keys = Object.keys(tree);
  // Where agents are learned, a loop over a list and a list that is spread take time.
  for (let at = 0; at < keys.length; at += 1) {
    const value = tree[keys[at]];
    const values = Array.isArray(value) ? value : [value];
    for (let by = 0; by < values.length; by += 1) if (typeof values[by]?.type === "string") found.push(values[by]);
  }
  return found;
}

const RUNS = /^(?:Call|New|TaggedTemplate|Member|Chain|Import|Yield|Await|Class|Spread)/;

/**
 * Whether evaluating it may run code, or read shared memory. A function in it does that only when it is called.
 * @param {Tree | null} tree
 * @returns {boolean}
 */
export function runsCode(tree) {
  if (tree === null || tree === undefined || isFunction(tree)) return false;
  return RUNS.test(tree.type) || makesText(tree) || childrenOf(tree).some(runsCode);
}

/** @param {Tree} tree @returns {boolean} whether it makes a value a text itself, for which the value may have code */
const makesText = (tree) => makesMemberKey(tree)
  || (tree.type === "TemplateLiteral" && tree.expressions.some((/** @type {Tree} */ one) => !isConstant(one)));

/** @param {Tree} tree @returns {boolean} whether it is a member of an object or a class whose key is made a text */
const makesMemberKey = ({ type, computed, key }) =>
  (type === "Property" || type === "PropertyDefinition" || type === "MethodDefinition") && computed && !isConstant(key);

/** @param {Tree} tree in a chain @returns {boolean} whether that may end before the tree's end */
export function hasOptional({ type, optional, object, callee }) {
  if (type !== "MemberExpression" && type !== "CallExpression") return false;
  return optional || hasOptional(object ?? callee);
}

/** @param {Tree} tree @returns {boolean} whether it has the same value each time */
export function isConstant({ type, argument, expressions }) {
  if (type === "UnaryExpression") return isConstant(argument);
  return type === "Literal" || type === "Super" || (type === "TemplateLiteral" && expressions.length === 0);
}

/** @param {Tree} tree @returns {boolean} whether it is the `url` of `import.meta` */
export const isMetaUrl = ({ type, object, property, computed }) =>
  type === "MemberExpression" && object.type === "MetaProperty" && object.meta.name === "import"
  && (computed ? property.value : property.name) === "url";

/** @param {Tree | null} pattern @returns {boolean} whether expressions are evaluated when it gets its values */
export function hasExpressions(pattern) {
  if (pattern === null || pattern.type === "Identifier") return false;
  if (pattern.type === "AssignmentPattern" || pattern.computed) return true;
  return childrenOf(pattern).some(hasExpressions);
}

/**
 * @param {Tree} pattern
 * @returns {boolean} whether it gives names the members of an object, one after the other, and calls getters at most
 */
export const givesMembers = ({ type, properties }) => type === "ObjectPattern"
  && properties.every((/** @type {Tree} */ { type: kind, computed, value }) => kind === "Property" && !computed
    && (value.left ?? value).type === "Identifier" && !runsCode(value));

/**
 * @param {Tree} pattern or a name
 * @param {Tree | null} value
 * @returns {boolean} whether the pattern goes through what code may make, and the engine would say that it asks for the
 * iterator at the place of a call in that code
 */
export const goesThrough = (pattern, value) =>
  pattern.type === "ArrayPattern" && value?.type !== "ArrayExpression" && runsCode(value);

/**
 * @param {Tree} pattern
 * @param {Tree | null} value
 * @returns {boolean} whether the pattern gives names the elements of something, one after the other, and runs no code
 * besides
 */
export const givesElements = ({ type, elements }, value) => type === "ArrayPattern" && elements.length > 0
  && value !== null && value.type !== "ArrayExpression"
  && elements.every((/** @type {Tree | null} */ one) => one !== null && (one.argument ?? one).type === "Identifier");

/** @param {Tree | null} pattern @returns {string[]} the names that it declares */
export function namesIn(pattern) {
  if (pattern === null) return [];
  switch (pattern.type) {
    case "Identifier": return [pattern.name];
    case "ObjectPattern":
      return pattern.properties.flatMap((/** @type {Tree} */ one) =>
        namesIn(one.type === "RestElement" ? one.argument : one.value));
    case "ArrayPattern": return pattern.elements.flatMap(namesIn);
    case "AssignmentPattern": return namesIn(pattern.left);
    case "RestElement": return namesIn(pattern.argument);
    default: return [];
  }
}
