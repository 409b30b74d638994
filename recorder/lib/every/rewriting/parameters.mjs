// Parameters that run code when they get their values: a default that calls something, or a pattern that reads members.
// A function with such parameters takes what it is given under other names, and declares them at its beginning. So it
// has a frame by then.

import { positionOutsideComments } from "./comments.mjs";
import { childrenOf, givesMembers, isClass, isFunction, namesIn, runsCode } from "./tree.mjs";

/** @typedef {import("./tree.mjs").Tree} Tree */
/** @typedef {import("./scopes.mjs").Info} Info */
/** @typedef {import("./writer.mjs").CodeWriter} CodeWriter */

/** @param {Tree} parameter @returns {Tree} the name or the pattern that gets its value */
export const coreOf = ({ type, left, argument, ...parameter }) => left ?? argument ?? { type, ...parameter };

/** @param {Tree} tree @param {(tree: Tree) => boolean} isOne @returns {boolean} whether it has such a tree in it */
const has = (tree, isOne) => isOne(tree) || childrenOf(tree).some((one) => has(one, isOne));

/** @param {Tree} tree of a function's braces @returns {string[]} the names that it has besides `let` and its like */
function variablesIn(tree) {
  if (isClass(tree)) return [];
  if (isFunction(tree)) return tree.type === "FunctionDeclaration" ? [tree.id.name] : [];
  const own = tree.type === "VariableDeclaration" && tree.kind === "var"
    ? tree.declarations.flatMap((/** @type {Tree} */ { id }) => namesIn(id)) : [];
  return [...own, ...childrenOf(tree).flatMap(variablesIn)];
}

/** @param {Tree} parameter @returns {boolean} whether it may run code when it gets its value */
const runs = (parameter) => coreOf(parameter).type === "ObjectPattern" || runsCode(parameter.right);

/**
 * @param {Tree} tree a function
 * @returns {Tree[]} the parameters that it declares at its beginning: from the first that isn't only a name
 */
export function declaredParameters({ body, generator, params }) {
  if (generator || !params.some(runs)) return [];
  if (params.some((/** @type {Tree} */ one) => coreOf(one).type === "ArrayPattern")) return [];
  // What the braces declare for all of the function would hide names that the parameters mean.
  const hidden = body.type === "BlockStatement" ? body.body.flatMap(variablesIn) : [];
  if (params.some((/** @type {Tree} */ one) => has(one, ({ name }) => hidden.includes(name)))) return [];
  return params.slice(params.findIndex((/** @type {Tree} */ { type }) => type !== "Identifier"));
}

/** @param {Tree} pattern of an object @returns {string} one of which the engine says the same if it gets nothing */
function firstOf({ properties: [first] }) {
  if (first?.type !== "Property" || first.computed) return "{}";
  const key = first.key.name ?? JSON.stringify(first.key.value);
  return `{ ${key}: $o${first.value.type === "AssignmentPattern" ? " = 0" : ""} }`;
}

/**
 * @param {string} source
 * @param {Tree} parameter
 * @param {string} given its value
 * @returns {string} that, if the engine takes it: else the engine says why
 */
function checked(source, { left, right, ...parameter }, given) {
  const core = left ?? parameter;
  if (core.type !== "ObjectPattern") return given;
  const isNothing = left ? `${given} === null` : `${given} === null || ${given} === undefined`;
  const value = left ? ` = ${source.slice(right.start, right.end)}` : "";
  return `${isNothing} ? ((${firstOf(core)}${value}) => {})(${given}) : ${given}`;
}

/** @param {Tree} parameter @param {number} at @returns {string} what stands for it among the parameters */
function headOf({ type }, at) {
  if (type === "RestElement") return `...$p${at}`;
  return type === "AssignmentPattern" ? `$p${at} = undefined` : `$p${at}`;
}

/**
 * @param {CodeWriter} writer
 * @param {Tree} tree a function
 * @param {Info | null} frame of the function, if it has one
 * @param {{ declared: Tree[], begins: string }} how the parameters that it declares, and what it begins with
 */
export function writeParameters(writer, tree, frame, { declared, begins }) {
  const [first] = declared;
  const arrow = tree.type === "ArrowFunctionExpression" ? " =>" : "";
  const kept = frame === null ? [] : declared.slice(1).map(({ start }, at) =>
    ` ${writer.room(frame, first.start, start)} = $p${at + 1};`);
  writer.edits.before(first.start, `${declared.map(headOf).join(", ")})${arrow} { ${begins}${kept.join("")} `);
  declared.forEach((one, at) => writeParameter(writer, one, frame, `$p${at}`));
  leaveOut(writer, tree, declared);
}

/** @param {CodeWriter} writer @param {Tree} one @param {Info | null} frame @param {string} given its value */
function writeParameter(writer, one, frame, given) {
  const { edits, source } = writer;
  const core = coreOf(one);
  const room = frame !== null && givesMembers(core) ? writer.room(frame, core.start, core.end) : undefined;
  edits.before(one.start, "let { $: ");
  if (one.type === "RestElement") edits.replace(one.start, "...".length, "");
  edits.after(one.end, ` } = { $: ${room === undefined ? "" : `${room} = `}(${checked(source, one, given)}) };`);
  if (one.right && room !== undefined) writer.within(one.right, `(${room} = (`, "))");
  writer.write(core, null);
  writer.write(one.right, frame);
}

/**
 * Leaves out what stands between the parameters, and behind them up to the braces.
 * @param {CodeWriter} writer
 * @param {Tree} tree a function
 * @param {Tree[]} declared
 */
function leaveOut({ edits, source }, { params, type }, declared) {
  const { end } = params.at(-1);
  const close = positionOutsideComments(source, ")", end);
  for (const one of declared) {
    const comma = positionOutsideComments(source, ",", one.end);
    if (comma >= 0 && comma < close) edits.replace(comma, 1, " ");
  }
  edits.replace(close, 1, " ");
  if (type === "ArrowFunctionExpression") edits.replace(positionOutsideComments(source, "=>", close), 2, " ");
}
