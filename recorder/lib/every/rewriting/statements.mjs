// How statements are rewritten.

import { positionOutsideComments } from "./comments.mjs";
import { childrenOf, isClass, isConstant, isFunction, runsCode } from "./tree.mjs";

/** @typedef {import("./tree.mjs").Tree} Tree */
/** @typedef {import("./scopes.mjs").Info} Info */
/** @typedef {import("./scopes.mjs").Scope} Scope */
/** @typedef {import("./writer.mjs").CodeWriter} CodeWriter */
/** @typedef {import("./writer.mjs").Write} Write */
/** @typedef {import("./writer.mjs").WriteAnywhere} WriteAnywhere */

/** @type {Record<string, WriteAnywhere>} statements with names, and loops: they are rewritten without a frame, too */
export const WITHOUT_FRAME = {
  BlockStatement: (writer, tree, info) => {
    showNames(writer, tree, info, tree.start + 1);
    writer.declaring(tree.start + 1, () => {
      writer.registerDeclared(tree.start + 1, tree.body);
      writer.writeAll(tree.body, info);
    });
  },
  CatchClause: (writer, tree, info) => {
    writer.write(tree.param, null);
    showNames(writer, tree, info, tree.body.start + 1);
    writer.registerDeclared(tree.body.start + 1, tree.body.body);
    writer.writeAll(tree.body.body, info);
  },
  SwitchStatement: writeSwitch,
  ForStatement: writeFor,
  ForOfStatement: (writer, tree, info) => writeEach(writer, tree, info, (room) => `(${room} = $R.iterable((`),
  ForInStatement: (writer, tree, info) => {
    if (info !== null) makeOfList(writer, tree);
    writeEach(writer, tree, info, (room) => `($R.keysIn($f, ${room.slice("$f.t[".length, -1)}, (`);
  },
  DoWhileStatement: writeLoop,
  WhileStatement: writeLoop,
};

/** @type {Write} */
const nothing = () => {};

/** @type {Write} what it has is evaluated, and nothing is kept for it meanwhile */
const inside = (writer, tree, info) => writer.writeAll(childrenOf(tree), info);

/** @type {Record<string, Write>} by the kinds of trees */
export const STATEMENTS = {
  ...WITHOUT_FRAME,
  BreakStatement: nothing,
  ContinueStatement: nothing,
  DebuggerStatement: nothing,
  EmptyStatement: nothing,
  ExpressionStatement: inside,
  IfStatement: inside,
  LabeledStatement: (writer, tree, info) => writer.write(tree.body, info),
  ReturnStatement: inside,
  ThrowStatement: inside,
  TryStatement: writeTry,
  VariableDeclaration: inside,
};

/**
 * @param {CodeWriter} writer
 * @param {Tree} tree that has a scope
 * @param {Info | null} info
 * @param {number} at where its names are there
 */
function showNames(writer, tree, info, at) {
  const own = writer.analysis.own.get(tree);
  if (own === undefined || !writer.isSeen(own, info)) return;
  writer.edits.before(at, ` const $e${own.id} = ${writer.environment(own, info)};`);
}

/** @type {WriteAnywhere} */
function writeSwitch(writer, tree, info) {
  const { discriminant, cases } = tree;
  const isAsked = cases.some((/** @type {Tree} */ { test }) => test && runsCode(test));
  const own = writer.analysis.own.get(tree);
  if (own !== undefined && writer.isSeen(own, info)) showCases(writer, tree, own, info);
  if (info !== null && isAsked && !isConstant(discriminant)) writer.keep(info, discriminant, tree.end);
  writer.write(discriminant, info);
  for (const { test, consequent } of cases) writer.writeAll([test, ...consequent], info);
}

/**
 * All cases are one block. Its names are made visible by the test of a case that comes first, and is never taken.
 * @param {CodeWriter} writer
 * @param {Tree} tree a `switch`
 * @param {Scope} own
 * @param {Info | null} info
 */
function showCases(writer, { start, end, cases }, own, info) {
  const declared = writer.declaredIn(cases.flatMap((/** @type {Tree} */ { consequent }) => consequent));
  const shows = [`$e${own.id} = ${writer.environment(own, info)}`, ...declared, "0 / 0"];
  writer.edits.before(start, `{ let $e${own.id}; `);
  writer.edits.before(cases[0].start, `case (${shows.join(", ")}): `);
  writer.edits.after(end, " }");
}

/** @type {WriteAnywhere} what isn't in braces has no variables of its own for each round */
function writeLoop(writer, tree, info) {
  writer.withoutVariables(() => writer.writeAll([tree.test, tree.body], info));
}

/** @type {WriteAnywhere} */
function writeFor(writer, tree, info) {
  const own = writer.analysis.own.get(tree);
  if (own !== undefined && writer.isSeen(own, info)) showHead(writer, tree, own, info);
  writer.withoutVariables(() => writer.writeAll([tree.init, tree.test, tree.update, tree.body], info));
}

/**
 * The names are made anew for each round: first for what they begin with, and then for the first test and for each
 * update.
 * @param {CodeWriter} writer
 * @param {Tree} tree a `for` with names of its own
 * @param {Scope} own
 * @param {Info | null} info
 */
function showHead({ edits, environment, source }, { init, test, update }, own, info) {
  const shows = `$e${own.id} = ${environment(own, info)}`;
  const isFirst = `$n${own.id}`;
  edits.before(init.declarations[0].start, `${shows}, ${init.kind === "let" && update ? `${isFirst} = true, ` : ""}`);
  if (init.kind !== "let") return;
  const begins = update ? `${isFirst} ? (${isFirst} = false, ${shows}) : 0` : shows;
  if (test) {
    edits.before(test.start, `(${begins}, (`);
    edits.after(test.end, "))");
  } else edits.before(positionOutsideComments(source, ";", init.end) + 1, ` (${begins}, true)`);
  if (update) edits.before(update.start, `${shows}, `);
}

/** @param {CodeWriter} writer @param {Tree} tree a `for..in`, which becomes a loop over a list of its keys */
function makeOfList({ edits, source }, { left }) {
  edits.replace(positionOutsideComments(source, "in", left.end), "in".length, "of");
  // A loop can't go `for (async of`.
  if (left.type !== "Identifier") return;
  edits.before(left.start, "(");
  edits.after(left.end, ")");
}

/**
 * @param {CodeWriter} writer
 * @param {Tree} tree
 * @param {Info | null} info
 * @param {(room: string) => string} begins what stands before that which it goes through, and puts it into the frame
 */
function writeEach(writer, tree, info, begins) {
  const { body, left, right } = tree;
  if (info !== null) {
    const room = writer.room(info, right.end, tree.end, [left.start, left.end]);
    writer.within(right, begins(room), ")))");
    // What the loop has got is nowhere else while other code runs there.
    if (runsCode(left)) writer.analysis.hidden.push([left.start, left.end]);
  }
  const own = writer.analysis.own.get(tree);
  if (own !== undefined && writer.isSeen(own, info)) {
    if (body.type === "BlockStatement") showNames(writer, tree, info, body.start + 1);
    else writer.within(body, `{ const $e${own.id} = ${writer.environment(own, info)};`, "}");
  }
  writer.withoutVariables(() => {
    writer.write(left, null);
    writer.writeAll([right, body], info);
  });
}

/** @type {Write} */
function writeTry(writer, tree, info) {
  if (tree.finalizer) keepLeaving(writer, tree, info);
  writer.writeAll([tree.block, tree.handler, tree.finalizer], info);
}

/** @typedef {{ how: string, what: string }} TryLeaving where the frame has how a `try` was left, and with what */

/**
 * How a `try` was left is kept while its `finally` runs. Whatever is thrown goes through a `catch` around the rest.
 * @type {Write}
 */
function keepLeaving(writer, tree, info) {
  const { edits } = writer;
  const { block, handler, finalizer, start } = tree;
  const how = writer.room(info, finalizer.start, finalizer.end);
  const what = writer.room(info, finalizer.start, finalizer.end);
  for (const part of [block, handler?.body]) if (part) noteLeaving(writer, part, { how, what });
  const ends = ` ${how} = "ends"; ${what} = undefined;`;
  const threw = ` catch ($x) { ${how} = "threw"; ${what} = $x; throw $x; } `;
  if (handler) {
    edits.before(start, "try { ");
    edits.after(handler.end, `${ends} }${threw}`);
  } else {
    writer.atEnd(block, ends);
    edits.after(block.end, threw);
  }
}

/**
 * Notes each statement that leaves a part of a `try`.
 * @param {CodeWriter} writer
 * @param {Tree} part
 * @param {TryLeaving} leaving
 */
function noteLeaving(writer, part, leaving) {
  /** @param {Tree} tree @param {string[]} inside the jumps that lead to what is in the part */
  const note = (tree, inside) => {
    const { type } = tree;
    if (isFunction(tree) || isClass(tree)) return;
    if (type === "ReturnStatement") noteReturn(writer, tree, leaving);
    else if (type === "BreakStatement" || type === "ContinueStatement") {
      const jump = jumpText(tree);
      if (!inside.includes(jump)) noteJump(writer, tree, leaving, jump);
    } else childrenOf(tree).forEach((child) => note(child, [...inside, ...jumpsTo(tree)]));
  };
  note(part, []);
}

/** @param {Tree} tree a jump @returns {string} */
const jumpText = ({ type, label }) => `${type === "BreakStatement" ? "break" : "continue"} ${label?.name ?? ""}`;

/** @param {Tree} tree @returns {string[]} the jumps in it that lead to it */
function jumpsTo(tree) {
  if (tree.type === "LabeledStatement") return [`break ${tree.label.name}`, `continue ${tree.label.name}`];
  if (tree.type === "SwitchStatement") return ["break "];
  return /^(?:For|While|DoWhile)/.test(tree.type) ? ["break ", "continue "] : [];
}

/** @param {CodeWriter} writer @param {Tree} tree @param {TryLeaving} leaving */
function noteReturn({ edits, source }, { argument, end }, { how, what }) {
  if (argument) {
    edits.before(argument.start, `((${what} = (`);
    edits.after(argument.end, `)), (${how} = "return"), ${what})`);
  } else {
    edits.after(end - (source[end - 1] === ";" ? 1 : 0), ` (${how} = "returns", ${what} = undefined)`);
  }
}

/** @param {CodeWriter} writer @param {Tree} tree @param {TryLeaving} leaving @param {string} jump */
function noteJump(writer, tree, { how, what }, jump) {
  writer.within(tree, `{ ${how} = "${jump}"; ${what} = undefined; `, " }");
}
