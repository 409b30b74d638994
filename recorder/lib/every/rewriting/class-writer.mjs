// How classes, and objects with methods, are rewritten: what their code captures is made known when they are made.

import { positionOutsideComments } from "./comments.mjs";
import { EXPRESSIONS } from "./expressions.mjs";
import { NAME_OF_KEY } from "./function-names.mjs";
import { newId } from "./scopes.mjs";
import { isClass, isMethod } from "./tree.mjs";
import { STAMPED, STAMP_CHECK, stampsObjects } from "./write-guards.mjs";

/** @typedef {import("./tree.mjs").Tree} Tree */
/** @typedef {import("./scopes.mjs").Info} Info */
/** @typedef {import("./writer.mjs").CodeWriter} CodeWriter */

/** @param {CodeWriter} writer @param {Tree} tree @param {Info | null} info */
export function writeClass(writer, tree, info) {
  const { body: { body, start }, superClass } = tree;
  const own = writer.infoOf(tree);
  if (stampsObjects(tree)) writeStampCheck(writer, tree.body);
  writer.write(superClass, info);
  const isDerived = superClass && body.every((/** @type {Tree} */ { kind }) => kind !== "constructor");
  if (isDerived) own.superOf = tree;
  const home = writer.home(tree);
  own.makes = Boolean(isDerived && home);
  const keys = body.flatMap((/** @type {Tree} */ member) => writeMember(writer, member, info, own));
  const shown = `${readerOf(writer, body)}, ${methodsOf(writer, body)}, ${writer.cells(own)}`;
  const more = `{ keys: [${keys.join(", ")}], isHidden: ${own.isOpaque} }`;
  const made = home === undefined ? "this" : `${home} = this`;
  const constructs = own.makes ? constructorOf(own.id, writer.cells(own)) : beginningOf(writer, tree, own);
  writer.edits.before(start + 1, `static { $R.cls(${newId()}, ${made}, ${shown}, ${more}); }${constructs}`);
}

/** @param {Tree} field of a class @returns {boolean} */
const isNamedByField = ({ value }) => value !== null && isClass(value) && value.id === null;

/**
 * The check comes before an object gets its first field. In a class of private methods alone it comes behind these, and
 * before a class that gets its name from the field it is a field of its own.
 * @param {CodeWriter} writer
 * @param {Tree} classBody
 */
function writeStampCheck({ edits, source }, { body, start }) {
  const field = body.find((/** @type {Tree} */ one) => one.type === "PropertyDefinition" && !one.static);
  if (field === undefined || isNamedByField(field)) edits.before(start + 1, STAMP_CHECK);
  else if (field.value === null) {
    const end = field.computed ? positionOutsideComments(source, "]", field.key.end) + 1 : field.key.end;
    edits.after(end, ` = ${STAMPED};`);
  } else {
    edits.before(field.value.start, `(${STAMPED}, `);
    edits.after(field.value.end, ")");
  }
}

/** @param {number} id @param {string} cells @returns {string} the constructor that a derived class has by itself */
const constructorOf = (id, cells) =>
  ` constructor(...$a) { const $f = $R.enter(${id}, ${cells}); try { super(...$a); } finally { $R.leave($f); } }`;

/**
 * A base class begins with its fields. Its constructor has no frame by then, so there must be nothing else to show.
 * @param {CodeWriter} writer
 * @param {Tree} tree a class
 * @param {Info} own the class's
 * @returns {string} a constructor, if it has none that was written
 */
function beginningOf(writer, { body: { body }, superClass }, own) {
  const { analysis } = writer;
  if (superClass || !body.some((/** @type {Tree} */ { value }) => analysis.fieldValues.has(value))) return "";
  const written = body.find((/** @type {Tree} */ { kind }) => kind === "constructor")?.value;
  if (written === undefined) {
    own.beginsAt = own.start + 1;
    return " constructor() {}";
  }
  const names = analysis.own.get(written)?.names;
  const isUsed = ["arguments", "new.target"].some((name) => (names?.get(name)?.references.length ?? 0) > 0);
  if (!isUsed && written.params.length === 0) writer.infoOf(written).beginsAt = written.start;
  return "";
}

/**
 * @param {CodeWriter} writer
 * @param {Tree} value of a field
 * @param {Info} own the class's: what its code captures is needed for the other fields, too
 */
function writeFieldValue(writer, value, own) {
  const made = writer.analysis.fieldValues.get(value);
  const info = made && writer.infoOf(made);
  if (info === undefined || info.isHidden || own.isOpaque) {
    writer.write(value, null);
    return;
  }
  const cells = writer.cells(own);
  const all = cells === "null" ? "[" : `${cells.slice(0, -1)}, `;
  const enters = `$R.enter(${info.id}, ${all}[$R.environment(() => this), 0]])`;
  writer.within(value, `(() => { const $f = ${enters}; try { return (`, "); } finally { $R.leave($f); } })()");
  writer.write(value, info);
}

/**
 * @param {CodeWriter} writer
 * @param {Tree} member of a class
 * @param {Info | null} info
 * @param {Info} own the class's
 * @returns {string[]} the variable that has its key, if the class keeps that
 */
function writeMember(writer, member, info, own) {
  if (member.type === "StaticBlock") {
    writeStaticBlock(writer, member);
    return [];
  }
  const keys = writeKey(writer, member, info, own);
  if (member.type === "MethodDefinition") writer.write(member.value, null, true);
  else writer.withoutVariables(() => writeFieldValue(writer, member.value, own));
  return keys;
}

/**
 * @param {CodeWriter} writer
 * @param {Tree} member of a class
 * @param {Info | null} info
 * @param {Info} own the class's
 * @returns {string[]} the variable that has its key, if the class keeps that
 */
function writeKey(writer, member, info, own) {
  const { computed, key, type } = member;
  if (!computed) return [];
  giveName(writer, member);
  // What `new` defines depends on it.
  const isKept = type === "PropertyDefinition" && nameOf(writer, member) === undefined;
  const name = isKept ? writer.variable() : undefined;
  if (isKept && name === undefined) own.isOpaque = true;
  if (name !== undefined) {
    writer.edits.before(key.start, `${name} = $R.key((`);
    writer.edits.after(key.end, "))");
  }
  writer.write(key, info);
  return name === undefined ? [] : [name];
}

/** @param {CodeWriter} writer @param {Tree} member of a class: a function in a field gets the name of that */
function giveName({ analysis, names }, { key, value }) {
  if (names.get(value) !== NAME_OF_KEY || isClass(value)) return;
  if (key.type === "Literal") names.set(value, String(key.value));
  else if (isWellKnown(analysis, key)) names.set(value, `[Symbol.${key.property.name}]`);
  else analysis.refuse(value, "a function in a field whose name is computed");
}

/** @param {CodeWriter} writer @param {Tree} block of a class */
function writeStaticBlock(writer, block) {
  const at = positionOutsideComments(writer.source, "{", block.start) + 1;
  const scope = writer.analysis.own.get(block);
  if (scope && writer.isSeen(scope, null)) {
    writer.edits.before(at, ` const $e${scope.id} = ${writer.environment(scope, null)};`);
  }
  writer.declaring(at, () => {
    writer.registerDeclared(at, block.body);
    writer.writeAll(block.body, null);
  });
}

/**
 * The methods of a class or of an object, with what they capture. Another member may have the same name, and a name
 * that is computed may be any: the function is known by its text then.
 * @param {CodeWriter} writer
 * @param {Tree[]} members
 */
function methodsOf(writer, members) {
  // The other members of a class are made later.
  const made = members.filter(({ type }) => type !== "StaticBlock" && type !== "PropertyDefinition");
  const last = made.map((one) => nameOf(writer, one) === undefined).lastIndexOf(true);
  const rows = made.flatMap((one, at) => {
    const isOne = (one.type === "MethodDefinition" || isMethod(one)) && one.kind !== "constructor";
    if (!isOne || one.key.type === "PrivateIdentifier") return [];
    const info = writer.infoOf(one.value);
    if (info.isOpaque) return [];
    const name = nameOf(writer, one);
    const others = made.filter((other) =>
      other !== one && nameOf(writer, other) === name && other.kind !== pairOf(one));
    const isSure = name !== undefined && others.length === 0 && at > last;
    const kind = one.kind === "get" || one.kind === "set" ? one.kind : "value";
    const known = `${name === undefined ? "" : `, key: ${name}`}${isSure ? "" : `, enters: ${info.id}`}`;
    const more = `cells: ${writer.cells(info)}, usesSuper: ${info.usesSuper}${one.static ? ", isStatic: true" : ""}`;
    return [`{ kind: "${kind}"${known}, ${more} }`];
  });
  return `[${rows.join(", ")}]`;
}

/** @param {CodeWriter} writer @param {Tree} tree an object with methods @param {Info | null} info */
export function writeMethods(writer, tree, info) {
  const home = writer.home(tree);
  writer.edits.before(tree.start, `$R.obj(${newId()}, ${home === undefined ? "(" : `${home} = (`}`);
  writer.edits.after(tree.end, `), ${methodsOf(writer, tree.properties)})`);
  if (info !== null) EXPRESSIONS.ObjectExpression(writer, tree, info);
  else {
    for (const one of tree.properties) {
      if (one.computed) writer.write(one.key, info);
      writer.write(one.value ?? one.argument, info, isMethod(one));
    }
  }
}

/** @param {Tree} one a member @returns {string} the kind of the other function that its property may have */
const pairOf = ({ kind }) => (kind === "get" ? "set" : kind === "set" ? "get" : "none");

/**
 * @param {CodeWriter} writer
 * @param {Tree} member
 * @returns {string | undefined} its name as an expression; undefined: that may be any
 */
function nameOf({ analysis }, { computed, key, type }) {
  if (type === "SpreadElement") return undefined;
  if (key.type === "Literal") return JSON.stringify(String(key.value));
  if (!computed) return JSON.stringify(key.type === "PrivateIdentifier" ? `#${key.name}` : key.name);
  return isWellKnown(analysis, key) ? `Symbol.${key.property.name}` : undefined;
}

/** @param {import("./analysis.mjs").Analysis} analysis @param {Tree} key @returns {boolean} if it is `Symbol.name` */
const isWellKnown = (analysis, { type, computed, object, property }) =>
  type === "MemberExpression" && !computed && object.name === "Symbol" && analysis.bindingOf(object) === undefined
  && typeof (/** @type {any} */ (Symbol)[property.name]) === "symbol";

/**
 * @param {CodeWriter} writer
 * @param {Tree[]} body of a class
 * @returns {string} what shows an object's private members, if there are any
 */
function readerOf(writer, body) {
  const members = body.filter(({ key }) => key?.type === "PrivateIdentifier");
  if (members.length === 0) return "null";
  const has = [...new Set(members.map(({ key }) => `#${key.name} in $o`))];
  const read = members.flatMap((member) => {
    const value = privateValue(writer, member);
    return value === undefined ? [] : [`#${member.key.name} in $o ? ${value} : 0`];
  });
  return `($o) => ${has.join(" || ")} ? [${[...has, ...read].join(", ")}] : null`;
}

/** @param {CodeWriter} writer @param {Tree} member @returns {string | undefined} its value, unless code finds that */
function privateValue(writer, { key, kind, type, value }) {
  const read = `$o.#${key.name}`;
  if (type === "PropertyDefinition") return read;
  if (kind !== "method") return undefined;
  // It is a function, which can have properties.
  return writer.registering(writer.infoOf(value)).join(read);
}
