// What is done with each kind of tree when a module is gone over. A kind without a row here is refused.

import { visitClass } from "./class-visits.mjs";
import { childrenOf } from "./tree.mjs";

/** @typedef {import("./tree.mjs").Tree} Tree */
/** @typedef {import("./analysis.mjs").Analysis} Analysis */
/** @typedef {import("./analysis.mjs").EnclosingScope} EnclosingScope */

/** @typedef {(one: Analysis, tree: Tree, here: EnclosingScope) => void} Visit */

/** @type {Record<string, string>} the kinds that are always refused, with what is said of them */
export const REFUSED_KINDS = {
  WithStatement: "`with`",
  ImportExpression: "an import while it runs",
  ParenthesizedExpression: "parentheses as trees of their own",
};

/** @type {Visit} */
const visitInside = (one, tree, here) => one.visitAll(childrenOf(tree), here);

/** @type {Visit} */
const visitNothing = () => {};

/** @type {Visit} of what is gone over with the tree around it */
const visitElsewhere = (one, tree) => one.refuse(tree, `a ${tree.type} in such a place`);

/** @type {Visit} */
const visitFunction = (one, tree, here) => one.visitFunction(tree, here);

/** @type {Visit} */
const visitLoop = (one, tree, here) => one.visitLoop(tree, here);

/** @type {Visit} */
const visitPattern = (one, tree, here) => one.visitPattern(tree, here, false);

/** @type {Visit} */
const visitRefused = (one, tree) => one.refuse(tree, REFUSED_KINDS[tree.type]);

/** @type {Record<string, Visit>} by the kinds */
export const VISITS = {
  ArrayExpression: visitInside,
  ArrayPattern: visitPattern,
  ArrowFunctionExpression: visitFunction,
  AssignmentExpression: (one, tree, here) => one.visitAssignment(tree, here),
  AssignmentPattern: visitPattern,
  AwaitExpression: (one, tree, here) => {
    if (here.within === null) one.refuse(tree, "`await` at the top level");
    one.visit(tree.argument, here);
  },
  BinaryExpression: (one, tree, here) => {
    // Node's parser takes it, and the engine doesn't.
    if (one.source.startsWith("<!--", tree.right.start - 1)) one.refuse(tree, "`<!--`, which no module may have");
    visitInside(one, tree, here);
  },
  BlockStatement: (one, tree, here) => one.visitBlock(tree, here),
  BreakStatement: visitNothing,
  CallExpression: (one, tree, here) => {
    // What it makes has the prototype of that.
    if (tree.callee.type === "Super") one.refer("new.target", tree.callee, here, true);
    one.visitAll([tree.callee, ...tree.arguments], here);
  },
  CatchClause: (one, tree, here) => one.visitCatch(tree, here),
  ChainExpression: visitInside,
  ClassBody: visitElsewhere,
  ClassDeclaration: visitClass,
  ClassExpression: visitClass,
  ConditionalExpression: visitInside,
  ContinueStatement: visitNothing,
  DebuggerStatement: visitNothing,
  DoWhileStatement: visitLoop,
  EmptyStatement: visitNothing,
  ExportAllDeclaration: visitNothing,
  ExportDefaultDeclaration: visitInside,
  ExportNamedDeclaration: (one, tree, here) => one.visitExport(tree, here),
  ExpressionStatement: (one, tree, here) => {
    one.unused.add(tree.expression);
    one.visit(tree.expression, here);
  },
  ForInStatement: visitLoop,
  ForOfStatement: visitLoop,
  ForStatement: visitLoop,
  FunctionDeclaration: visitFunction,
  FunctionExpression: visitFunction,
  Identifier: (one, tree, here) => one.refer(tree.name, tree, here, true),
  IfStatement: visitInside,
  ImportAttribute: visitElsewhere,
  ImportDeclaration: (_one, tree, { scope }) => {
    for (const { local } of tree.specifiers) scope.declare(local.name, "import");
  },
  ImportDefaultSpecifier: visitElsewhere,
  ImportNamespaceSpecifier: visitElsewhere,
  ImportSpecifier: visitElsewhere,
  LabeledStatement: (one, tree, here) => one.visit(tree.body, here),
  Literal: visitNothing,
  LogicalExpression: visitInside,
  MemberExpression: (one, tree, here) => one.visitMember(tree, here),
  MetaProperty: (one, tree, here) => {
    if (tree.meta.name !== "new") one.refuse(tree, "`import.meta`, except its `url` where it is read");
    one.refer("new.target", tree, here, true);
  },
  MethodDefinition: visitElsewhere,
  NewExpression: visitInside,
  ObjectExpression: (one, tree, here) => one.visitObject(tree, here),
  ObjectPattern: visitPattern,
  PrivateIdentifier: visitNothing,
  Program: visitElsewhere,
  Property: visitElsewhere,
  PropertyDefinition: visitElsewhere,
  RestElement: visitPattern,
  ReturnStatement: visitInside,
  SequenceExpression: visitInside,
  SpreadElement: visitInside,
  StaticBlock: visitElsewhere,
  Super: (one, tree, here) => one.visitSuper(tree, here),
  SwitchCase: visitElsewhere,
  SwitchStatement: (one, tree, here) => one.visitSwitch(tree, here),
  TaggedTemplateExpression: (one, tree, here) => {
    one.hasTags = true;
    one.visitAll([tree.tag, tree.quasi], here);
  },
  TemplateElement: visitNothing,
  TemplateLiteral: visitInside,
  ThisExpression: (one, tree, here) => one.refer("this", tree, here, true),
  ThrowStatement: visitInside,
  TryStatement: visitInside,
  UnaryExpression: (one, tree, here) => {
    if (tree.operator === "delete") one.needsNoMeta(tree.argument);
    one.visit(tree.argument, here);
  },
  UpdateExpression: (one, tree, here) => one.visitUpdate(tree, here),
  VariableDeclaration: (one, tree, here) => {
    if (!["var", "let", "const"].includes(tree.kind)) one.refuse(tree, `\`${tree.kind}\``);
    one.visitAll(tree.declarations, here);
  },
  VariableDeclarator: (one, tree, here) => one.visitDeclarator(tree, here),
  WhileStatement: visitLoop,
  YieldExpression: visitInside,
  ...Object.fromEntries(Object.keys(REFUSED_KINDS).map((kind) => [kind, visitRefused])),
};
