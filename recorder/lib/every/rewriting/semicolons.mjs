// Writes the semicolons that JavaScript puts in by itself. What is put before a statement can't become a part of the
// statement before it then.

import { Edits } from "./source-edits.mjs";
import { childrenOf } from "./tree.mjs";

/** @typedef {import("./tree.mjs").Tree} Tree */

/** What ends with a semicolon wherever it stands. */
const ENDED = new Set([
  "BreakStatement", "ContinueStatement", "DebuggerStatement", "DoWhileStatement", "ExportAllDeclaration",
  "ExpressionStatement", "ImportDeclaration", "PropertyDefinition", "ReturnStatement", "ThrowStatement",
]);

/** @param {Tree} tree @param {Tree} outer in which it is @returns {boolean} whether it ends with a semicolon */
function isEnded(tree, outer) {
  const { type, declaration } = tree;
  if (type === "VariableDeclaration") return outer.init !== tree && outer.left !== tree;
  if (type === "ExportNamedDeclaration") return !declaration;
  if (type === "ExportDefaultDeclaration") return !/^(?:Function|Class)Declaration$/.test(declaration.type);
  return ENDED.has(type);
}

/** @param {Tree} tree of a module @returns {Tree[]} what ends with a semicolon in it, written or not */
export const endedIn = (tree) =>
  childrenOf(tree).flatMap((inner) => (isEnded(inner, tree) ? [inner, ...endedIn(inner)] : endedIn(inner)));

/**
 * @param {Tree} tree of a module
 * @param {string} source
 * @returns {{ source: string, original: (place: number) => number }} the text with all semicolons, and where a place of
 * it is in the text as it was
 */
export function withSemicolons(tree, source) {
  const edits = new Edits(source);
  for (const { end } of endedIn(tree)) if (source[end - 1] !== ";") edits.after(end, ";");
  const { code, original } = edits.made();
  return { source: code, original };
}
