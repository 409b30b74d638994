// Classes, when a module is gone over. A class keeps what any code in its braces captures: a private method can be
// reached by that code only.

import { Info, newId } from "./scopes.mjs";
import { childrenOf, isClass, runsCode } from "./tree.mjs";

/** @typedef {import("./tree.mjs").Tree} Tree */
/** @typedef {import("./scopes.mjs").Scope} Scope */
/** @typedef {import("./analysis.mjs").Analysis} Analysis */
/** @typedef {import("./analysis.mjs").EnclosingScope} EnclosingScope */

/** @typedef {{ keys: EnclosingScope, methods: EnclosingScope, fields: EnclosingScope }} ClassParts where its code is */

/** @param {Analysis} one @param {Tree} tree a class @param {EnclosingScope} here */
export function visitClass(one, tree, here) {
  const scope = one.newScope(tree, here.scope, here.within, "class");
  // Nothing can be declared there that shows its name.
  scope.visibleFrom = Infinity;
  if (tree.id) declareOwnName(scope, tree, here);
  const keys = { scope, within: here.within };
  one.visit(tree.superClass, keys);
  const info = hiddenInfo(one, tree, here.within);
  one.infos.set(tree, info);
  // What its fields begin with, and its static blocks, are evaluated by functions that nobody wrote.
  const makes = hiddenInfo(one, tree, info);
  makes.holder = tree;
  const own = one.newScope(tree.body, scope, makes, "function");
  own.visibleFrom = Infinity;
  for (const name of ["this", "new.target"]) own.declare(name, "pseudo");
  const parts = { keys, methods: { scope, within: info }, fields: { scope: own, within: makes } };
  for (const member of tree.body.body) visitMemberOfClass(one, tree, member, parts);
}

/**
 * In a class its name always means the class, also before and after the name outside means that.
 * @param {Scope} scope
 * @param {Tree} tree
 * @param {EnclosingScope} here
 */
function declareOwnName(scope, tree, here) {
  scope.declare(tree.id.name, "class");
  const isAlone = tree.body.body.every((/** @type {Tree} */ { static: isStatic, type }) =>
    type !== "StaticBlock" && !(isStatic && type === "PropertyDefinition"));
  const own = scope.names.get(tree.id.name);
  if (own && isAlone && tree.type === "ClassDeclaration") own.same = here.scope.find(tree.id.name);
}

/** @param {Analysis} one @param {Tree} tree a class @param {Info | null} outer @returns {Info} */
function hiddenInfo(one, tree, outer) {
  const info = new Info(newId(), tree.body, outer);
  info.isHidden = true;
  one.functions.push(info);
  return info;
}

/** @param {Analysis} one @param {Tree} tree @param {Tree} member @param {ClassParts} parts */
function visitMemberOfClass(one, tree, member, { keys, methods, fields }) {
  if (member.type === "StaticBlock") {
    visitStaticBlock(one, member, fields);
    return;
  }
  if (member.computed) one.visit(member.key, keys);
  if (member.key.type === "PrivateIdentifier") namesOf(one, member).add(member.key.name);
  if (member.type === "PropertyDefinition") visitField(one, tree, member, fields);
  else if (member.type !== "MethodDefinition") one.refuse(member, `a ${member.type}`);
  else {
    one.visitFunction(member.value, methods, tree);
    one.noteAccessor(member);
    if (member.kind === "constructor") visitConstructor(one, member.value, tree);
  }
}

/**
 * What a field of an object begins with is evaluated by a function that nobody wrote. If it runs code, it becomes a
 * function of its own, with a frame.
 * @param {Analysis} one
 * @param {Tree} tree a class
 * @param {Tree} field
 * @param {EnclosingScope} fields
 */
function visitField(one, tree, { static: isStatic, value }, fields) {
  // A class without a name gets it from the field.
  const isOwn = !isStatic && runsCode(value) && !isClass(value) && hasShownFields(tree);
  if (!isOwn) one.visit(value, fields);
  else {
    const { start, end } = value;
    const made = { type: "ArrowFunctionExpression", params: [], body: value, generator: false, start, end };
    one.fieldValues.set(value, made);
    one.visitFunction(made, fields);
  }
}

/** @param {Tree} tree a class @returns {boolean} whether its fields have no names that depend on when it was made */
const hasShownFields = ({ body: { body } }) => body.every((/** @type {Tree} */ one) =>
  one.type !== "PropertyDefinition" || one.static || (!one.computed && (one.value === null || !usesSuper(one.value))));

/** @param {Tree} tree @returns {boolean} */
const usesSuper = (tree) => tree.type === "Super" || childrenOf(tree).some(usesSuper);

/** @param {Analysis} one @param {Tree} block @param {EnclosingScope} fields */
function visitStaticBlock(one, block, { scope, within }) {
  const own = one.newScope(block, scope, within, "function");
  own.declareLexical(block.body);
  own.declareVariables(block);
  one.own.set(block, own);
  one.visitAll(block.body, { scope: own, within });
}

/** @param {Analysis} one @param {Tree} member that is private @returns {Set<string>} where its name is noted */
const namesOf = ({ privateMethods, privateOthers }, { kind }) => (kind === "method" ? privateMethods : privateOthers);

/** @param {Analysis} one @param {Tree} tree @param {Tree} cls its class */
function visitConstructor(one, tree, cls) {
  const info = /** @type {Info} */ (one.infos.get(tree));
  const names = one.own.get(tree)?.names;
  info.makes = true;
  // What it makes is returned, whether it reads it again or not. That of a derived class may not be there yet.
  const needed = cls.superClass ? ["this", "new.target"] : ["this"];
  for (const binding of needed.flatMap((name) => names?.get(name) ?? [])) {
    binding.isAlwaysShown = true;
    info.needed.push(binding);
  }
  // It calls what its class inherits from.
  if (cls.superClass) info.superOf = cls;
}
