// Each kind of tree that node's own parser can give has its row: in what goes over modules, in what finds which names
// can still be read, and in what rewrites.

import assert from "node:assert/strict";
import { once } from "node:events";
import { test } from "node:test";
import { Worker } from "node:worker_threads";
import { LIVE_BEFORE } from "../../lib/every/rewriting/live.mjs";
import { REFUSED_KINDS, VISITS } from "../../lib/every/rewriting/visits.mjs";
import { WRITES } from "../../lib/every/rewriting/writer.mjs";
import graphFlags from "../../lib/program/node/graph-flags.cjs";

/** What node's walker of trees has besides kinds: groups of them. */
const GROUPS = new Set([
  "Class", "Expression", "ForInit", "Function", "MemberPattern", "Pattern", "ScopeBody", "Statement", "VariablePattern",
]);

/** What isn't in a function, or is a part of something else. */
const NEVER_ALONE = [
  "CatchClause", "ClassBody", "ExportAllDeclaration", "ExportDefaultDeclaration", "ExportNamedDeclaration",
  "ImportAttribute", "ImportDeclaration", "ImportDefaultSpecifier", "ImportNamespaceSpecifier", "ImportSpecifier",
  "MethodDefinition", "Program", "PropertyDefinition", "StaticBlock", "SwitchCase", "TemplateElement",
  "VariableDeclarator",
];

/** What has no frame, or is rewritten before its kind is looked up. */
const NEVER_WRITTEN = [
  "ArrowFunctionExpression", "ClassDeclaration", "ClassExpression", "FunctionDeclaration", "FunctionExpression",
  "Property", "YieldExpression",
];

const WALKER = `const { base } = require("internal/deps/acorn/acorn-walk/dist/walk");
require("node:worker_threads").parentPort.postMessage(Object.keys(base));`;

/** @returns {Promise<string[]>} */
async function kindsOfNode() {
  const worker = new Worker(WALKER, { eval: true, execArgv: [...graphFlags.GRAPH_FLAGS, "--no-warnings"] });
  const [names] = await once(worker, "message");
  return names.filter((/** @type {string} */ name) => !GROUPS.has(name));
}

const KINDS = await kindsOfNode();

/** @param {object} table @param {string[]} others @returns {string[]} the kinds that are in neither */
const lacking = (table, others) => KINDS.filter((kind) => !Object.hasOwn(table, kind) && !others.includes(kind));

test("node's walker has the kinds", () => {
  assert.ok(KINDS.length > 60);
  for (const kind of ["CallExpression", "StaticBlock", "ChainExpression"]) assert.ok(KINDS.includes(kind));
});

test("each kind is gone over, or refused", () => {
  assert.deepEqual(lacking(VISITS, []), []);
});

test("each kind that is evaluated has what is alive before it", () => {
  assert.deepEqual(lacking(LIVE_BEFORE, [...NEVER_ALONE, ...Object.keys(REFUSED_KINDS)]), []);
});

test("each kind in a function with a frame is rewritten", () => {
  const others = NEVER_ALONE.filter((kind) => kind !== "CatchClause" && kind !== "VariableDeclarator");
  assert.deepEqual(lacking(WRITES, [...others, ...NEVER_WRITTEN, ...Object.keys(REFUSED_KINDS)]), []);
});
