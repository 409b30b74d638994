// How expressions are rewritten: what is evaluated first is kept in the frame while the rest is evaluated.

import { beginIterating, hideValues, writeAssignment, writeUpdate } from "./assignments.mjs";
import { positionOutsideComments } from "./comments.mjs";
import { NAME_OF_KEY } from "./function-names.mjs";
import { engineName, keyOfShorthand } from "./naming.mjs";
import {
  childrenOf, givesMembers, hasOptional, isClass, isConstant, isMethod, runsCode,
} from "./tree.mjs";

/** @typedef {import("./tree.mjs").Tree} Tree */
/** @typedef {import("./scopes.mjs").Info} Info */
/** @typedef {import("./writer.mjs").CodeWriter} CodeWriter */
/** @typedef {import("./writer.mjs").Write} Write */

/** @param {(tree: Tree) => (Tree | null)[]} operandsOf in the order of evaluation @returns {Write} */
const operands = (operandsOf) => (writer, tree, info) => {
  const trees = operandsOf(tree);
  writer.keepOperands(info, trees, tree.end);
  writer.writeAll(trees, info);
};

/** @type {Write} */
const nothing = () => {};

/** @type {Write} what it has is evaluated, and nothing is kept for it meanwhile */
const inside = (writer, tree, info) => writer.writeAll(childrenOf(tree), info);

/** @type {Write} what such a pattern takes apart isn't shown */
const asPattern = (writer, tree) => writer.writeAll(childrenOf(tree), null);

/** @type {Record<string, Write>} by the kinds of trees */
export const EXPRESSIONS = {
  ArrayPattern: asPattern,
  AssignmentPattern: asPattern,
  AwaitExpression: inside,
  ConditionalExpression: inside,
  Identifier: nothing,
  Literal: nothing,
  LogicalExpression: inside,
  MetaProperty: nothing,
  ObjectPattern: asPattern,
  PrivateIdentifier: nothing,
  RestElement: asPattern,
  SequenceExpression: inside,
  Super: nothing,
  ThisExpression: nothing,
  UnaryExpression: inside,
  BinaryExpression: operands(({ left, right }) => (left.type === "PrivateIdentifier" ? [right] : [left, right])),
  ArrayExpression: operands(({ elements }) => elements),
  TemplateLiteral: (writer, { end, expressions }, info) => {
    // Each is made a text at once. The engine would say that it does so at the place of a call in it.
    const last = expressions.map(isConstant).lastIndexOf(false);
    expressions.forEach((/** @type {Tree} */ one, /** @type {number} */ at) => {
      if (at < last && !isConstant(one)) writer.keep(info, one, end, ["$R.text((", "))"]);
      else if (at === last) writer.within(one, "$R.text((", "))");
    });
    writer.writeAll(expressions, info);
  },
  TaggedTemplateExpression: (writer, tree, info) => {
    const { tag, quasi: { expressions } } = tree;
    // What it is called on must stay.
    const isOfMember = tag.type === "MemberExpression" && expressions.some(runsCode);
    if (isOfMember) hideValues(writer, tree.start, tree.end);
    operands(() => (isOfMember ? expressions : [tag, ...expressions]))(writer, tree, info);
    if (isOfMember) writer.write(tag, info);
  },
  SpreadElement: (writer, { argument }, info) => {
    // What goes through it has more to do: it is gone through before that.
    writer.within(argument, "$R.elementsOf((", "))");
    writer.write(argument, info);
  },
  NewExpression: (writer, tree, info) => {
    if (writeNewOfEngine(writer, tree, info)) return;
    if (tree.arguments.some(runsCode)) keepCallee(writer, tree, info, "constructible");
    operands(({ arguments: given }) => given)(writer, tree, info);
    writer.write(tree.callee, info);
  },
  MemberExpression: (writer, tree, info) => {
    const { object, property, computed } = tree;
    const isInChain = computed && hasOptional(object);
    // The rest of a chain is left out together with what it is of.
    if (isInChain && runsCode(property)) hideValues(writer, property.start, property.end);
    if (isInChain) writer.writeAll([object, property], info);
    else operands(() => (computed ? [object, property] : [object]))(writer, tree, info);
  },
  ObjectExpression: writeObject,
  ChainExpression: inside,
  CallExpression: writeCall,
  AssignmentExpression: writeAssignment,
  UpdateExpression: writeUpdate,
  VariableDeclarator: (writer, { id, init }, info) => {
    if (writer.analysis.takesElements(id, init)) takeElements(writer, id, init);
    else beginIterating(writer, id, init);
    if (init !== null && givesMembers(id)) writer.within(init, `(${writer.room(info, id.start, id.end)} = (`, "))");
    writer.writeAll([id, init], info);
  },
};

/** @type {Write} */
function writeObject(writer, tree, info) {
  const { properties } = tree;
  const values = properties.flatMap((/** @type {Tree} */ one) => {
    if (one.type === "SpreadElement") return [one];
    return [...(one.computed ? [one.key] : []), ...(isMethod(one) ? [] : [one.value])];
  });
  const keys = new Set(properties.flatMap((/** @type {Tree} */ one) => (one.computed ? [one.key] : [])));
  // Code may run when a key is made a text.
  const runs = (/** @type {Tree} */ one) => (keys.has(one) ? !isConstant(one) : runsCode(one));
  const last = values.map(runs).lastIndexOf(true);
  /** @type {Set<Tree>} */
  const shorthand = new Set(properties.flatMap((/** @type {Tree} */ one) => (one.shorthand ? [one.value] : [])));
  values.forEach((/** @type {Tree} */ one, /** @type {number} */ at) => {
    if (at >= last || !(keys.has(one) ? !isConstant(one) : writer.isKept(one))) return;
    if (one.type === "SpreadElement" || (isClass(one) && writer.names.get(one) === NAME_OF_KEY)) {
      hideValues(writer, tree.start, tree.end);
      return;
    }
    const isImported = writer.analysis.bindingOf(one)?.kind === "import";
    if (shorthand.has(one) && !isImported) writer.edits.before(one.start, `${keyOfShorthand(one.name)}: `);
    // A key is made a text or a symbol at once.
    if (keys.has(one)) writer.keep(info, one, tree.end, ["$R.key((", "))"]);
    else writer.keep(info, one, tree.end);
  });
  const lastKey = values[last];
  // The engine would say that it makes it one at the place of a call in it.
  if (keys.has(lastKey)) writer.within(lastKey, "$R.key((", "))");
  for (const one of properties) {
    if (one.computed) writer.write(one.key, info);
    if (isMethod(one)) writer.write(one.value, info, true);
    else if (one.type === "SpreadElement") {
      // The engine would say of a getter that it is at the place of a member around it.
      writer.within(one.argument, "$R.copied((", "))");
      hideValues(writer, one.start, one.end);
      writer.write(one.argument, info);
    }
    else if (!one.shorthand) writer.write(one.value, info);
  }
}

/**
 * @param {Tree} callee
 * @returns {boolean} whether it is in a chain, or one in parentheses, that passes its object on
 */
const isChain = (callee) => callee.type === "ChainExpression" || hasOptional(callee);

/** @type {Write} */
function writeCall(writer, tree, info) {
  const { callee, arguments: given } = tree;
  if (!given.some(runsCode)) {
    writer.writeAll([callee, ...given], info);
    return;
  }
  const object = callee.type === "MemberExpression" ? callee.object : undefined;
  const isNamed = !callee.computed || isConstant(callee.property);
  const isOfGlobal = object?.type === "Identifier" && writer.isGlobal(object);
  if (isOfGlobal && isNamed) writer.keepOperands(info, given, tree.end);
  else if (callee.type === "Super" || object?.type === "Super" || tree.optional || isChain(callee)) {
    hideValues(writer, positionOutsideComments(writer.source, "(", callee.end) + 1, tree.end);
  } else if (object !== undefined && isPrivateMethod(writer, callee)) {
    // What a private method is can't change.
    writer.keep(info, object, tree.end);
    writer.keepOperands(info, given, tree.end);
  } else if (object !== undefined) {
    writeCallOfMember(writer, tree, info);
    return;
  } else {
    keepCallee(writer, tree, info, "callable");
    writer.keepOperands(info, given, tree.end);
  }
  writer.writeAll([callee, ...given], info);
}

/**
 * Keeps what is called while its arguments are evaluated.
 * @param {CodeWriter} writer
 * @param {Tree} tree
 * @param {Info} info
 * @param {"callable" | "constructible"} needed what it must be
 */
function keepCallee(writer, { callee, end }, info, needed) {
  if (!writer.isKept(callee)) return;
  const room = writer.room(info, callee.end, end);
  writer.edits.before(callee.start, `($R.${needed}(${room} = (`);
  writer.edits.after(callee.end, `), ${JSON.stringify(engineName(callee))}))`);
}

/** @param {CodeWriter} writer @param {Tree} callee */
const isPrivateMethod = ({ analysis: { privateMethods, privateOthers } }, { property: { name, type } }) =>
  type === "PrivateIdentifier" && privateMethods.has(name) && !privateOthers.has(name);

/**
 * A call of an object's member: the object and the function are kept while the arguments are evaluated.
 * @type {Write}
 */
function writeCallOfMember(writer, tree, info) {
  const { callee, arguments: given } = tree;
  const { edits, source } = writer;
  // The engine says that the call itself is at its parenthesis: nothing of these is needed any more there.
  const at = positionOutsideComments(source, "(", callee.end);
  const object = writer.room(info, at + 1, tree.end, [callee.object.end, at]);
  const method = writer.room(info, at + 1, tree.end);
  edits.before(callee.start, `$R.method(${method} = (${object} = (`);
  edits.after(callee.object.end, "))");
  edits.after(callee.end, `, ${JSON.stringify(engineName(callee))})`);
  edits.replace(at, 1, `.call(${object}, `);
  writer.keepOperands(info, given, tree.end);
  writer.write(callee.object, info);
  if (callee.computed) writer.write(callee.property, info);
  writer.writeAll(given, info);
}

/**
 * What is gone through for a pattern is gone through before that: nothing would show how far the pattern is.
 * @param {CodeWriter} writer
 * @param {Tree} pattern
 * @param {Tree} value
 */
function takeElements(writer, { elements }, value) {
  const isOfRest = elements.at(-1).type === "RestElement";
  writer.within(value, "$R.takenOf((", `), ${elements.length}, ${isOfRest})`);
}

/** What is called in place of `new` with a class of the engine and one value: the engine would call code of agents. */
const MAKES = new Map([["Map", "madeMap"], ["Promise", "madePromise"], ["Set", "madeSet"]]);

/**
 * @param {CodeWriter} writer
 * @param {Tree} tree
 * @param {Info} info
 * @returns {boolean} whether something else is called: then it was written
 */
function writeNewOfEngine(writer, { arguments: given, callee, start }, info) {
  const makes = callee.type === "Identifier" && writer.isGlobal(callee) ? MAKES.get(callee.name) : undefined;
  // Parentheses, or a comment, may stand between them.
  const isPlain = /^new\s+\w+$/.test(writer.source.slice(start, callee.end));
  if (makes === undefined || !isPlain || given.length !== 1 || given[0].type === "SpreadElement") return false;
  writer.edits.replace(start, callee.end - start, `$R.${makes}`);
  writer.writeAll(given, info);
  return true;
}
