// How assignments and updates are rewritten: while code runs, the frame has what the engine would keep.

import { positionOutsideComments } from "./comments.mjs";
import { givesMembers, goesThrough, isConstant, isPattern, runsCode } from "./tree.mjs";

/** @typedef {import("./tree.mjs").Tree} Tree */
/** @typedef {import("./scopes.mjs").Info} Info */
/** @typedef {import("./writer.mjs").CodeWriter} CodeWriter */
/** @typedef {import("./writer.mjs").Write} Write */

/** @param {CodeWriter} writer @param {number} from @param {number} to a place with values that aren't shown */
export const hideValues = ({ analysis }, from, to) => void analysis.hidden.push([from, to]);

/**
 * What a pattern goes through would be asked for its iterator at the place of a call that it comes from.
 * @param {CodeWriter} writer
 * @param {Tree} pattern or a name
 * @param {Tree | null} value
 */
export function beginIterating(writer, pattern, value) {
  if (goesThrough(pattern, value)) writer.within(/** @type {Tree} */ (value), "$R.iterable((", "))");
}

const LOGICAL = new Set(["||=", "&&=", "??="]);

/** @type {Write} */
export function writeAssignment(writer, tree, info) {
  const { left, right, operator } = tree;
  const isUsed = left.type === "MemberExpression" && !writer.analysis.unused.has(tree);
  const worth = isUsed ? roomOfWorth(writer, tree, info) : undefined;
  const binary = operator === "=" || LOGICAL.has(operator) ? undefined : operator.slice(0, -1);
  if (isPattern(left)) {
    // Else the whole is worth what there was, and no iterator.
    if (writer.analysis.unused.has(tree)) beginIterating(writer, left, right);
    else if (goesThrough(left, right)) hideValues(writer, right.start, right.end);
    if (givesMembers(left)) writer.within(right, `(${writer.room(info, left.start, left.end)} = (`, "))");
    writer.writeAll([left, right], info);
  } else if (left.type === "Identifier") {
    if (binary !== undefined) {
      const old = runsCode(right) ? `(${writer.room(info, left.end, tree.end)} = ${left.name})` : left.name;
      replaceOperator(writer, tree, old, binary);
    }
    writer.write(right, info);
  } else if (binary !== undefined && left.object.type !== "Super") writeChange(writer, tree, info, { binary, worth });
  else {
    if (worth !== undefined) writer.within(right, `(${worth} = (`, "))");
    writeMemberAssignment(writer, tree, info);
  }
}

/**
 * While a setter runs, the engine has what the whole is worth: the frame has it instead, up to the end.
 * @param {CodeWriter} writer
 * @param {Tree} tree an assignment to a member
 * @param {Info} info
 * @returns {string | undefined} where the frame has it, if it can
 */
function roomOfWorth(writer, { left, right, operator, start, end }, info) {
  if (LOGICAL.has(operator) || left.object.type === "Super") {
    hideValues(writer, start, right.start);
    return undefined;
  }
  const room = writer.room(info, start, right.start);
  writer.edits.before(start, "(");
  writer.edits.after(end, `, ${takenFrom(room)})`);
  return room;
}

/** @param {string} room in a frame @returns {string} what takes the value from there */
const takenFrom = (room) => `$R.taken($f, ${room.slice("$f.t[".length, -1)})`;

/**
 * Makes `a += b` be `a = a + (b)`: the engine would say of the sum that it is at the place of a call before it. What
 * reads `a`, and what writes it, stands for the end of the first one: a getter or a setter is known to be called there.
 * @param {CodeWriter} writer
 * @param {Tree} tree an assignment
 * @param {string} old what reads `a`
 * @param {string} binary
 * @param {string} [worth] where the frame has the sum
 */
function replaceOperator(writer, { left, right, operator, end }, old, binary, worth) {
  const { edits, source } = writer;
  const at = positionOutsideComments(source, operator, left.end);
  edits.replace(at, 0, worth === undefined ? "= " : `= (${worth} = `, left.end - 1);
  edits.replace(at, 0, old, left.end - 1);
  edits.replace(at, operator.length, ` ${binary} (`);
  edits.after(end, worth === undefined ? ")" : "))");
  // Both values may be made numbers there.
  hideValues(writer, left.end, right.start);
}

/**
 * `o[k] += v`: its parts are evaluated in the order that they had.
 * @param {CodeWriter} writer
 * @param {Tree} tree
 * @param {Info} info
 * @param {{ binary: string, worth?: string }} how its operator, and where the frame has what the whole is worth
 */
function writeChange(writer, tree, info, { binary, worth }) {
  const { left, right, end } = tree;
  const member = keepMember(writer, left, info, end);
  if (worth !== undefined || !isConstant(right)) {
    const old = runsCode(right) ? `(${writer.room(info, left.end, end)} = ${member})` : member;
    replaceOperator(writer, tree, old, binary, worth);
  }
  writer.write(right, info);
}

/**
 * Keeps the object and the key of a member.
 * @param {CodeWriter} writer
 * @param {Tree} member
 * @param {Info} info
 * @param {number} end where they have been used
 * @returns {string} what reads the member again
 */
function keepMember(writer, { object, property, computed, end: behind }, info, end) {
  const kept = object.type === "Super" ? "super" : writer.keep(info, object, end);
  const { source } = writer;
  let key = source.slice(object.end, behind);
  if (computed && isConstant(property)) key = `[${source.slice(property.start, property.end)}]`;
  else if (computed) key = `[${writer.keep(info, property, end)}]`;
  writer.write(object, info);
  if (computed) writer.write(property, info);
  return `${kept}${key}`;
}

/** @type {Write} */
function writeMemberAssignment(writer, tree, info) {
  const { left, right } = tree;
  const needs = runsCode(right) || (left.computed && runsCode(left.property));
  if (left.object.type === "Super") hideValues(writer, tree.start, tree.end);
  else if (needs && writer.isKept(left.object)) writer.keep(info, left.object, tree.end);
  if (needs && left.computed && !isConstant(left.property)) writer.keep(info, left.property, tree.end);
  writer.write(left.object, info);
  if (left.computed) writer.write(left.property, info);
  writer.write(right, info);
}

/**
 * `o[k]++` reads and writes: what its member is of is kept while it reads.
 * @type {Write}
 */
export function writeUpdate(writer, tree, info) {
  const { argument, end, start } = tree;
  if (argument.type === "Identifier") {
    // The engine would say that it makes a number of it at the place of a call before it.
    writer.edits.before(start, `(${argument.name} = $R.numeric(${argument.name}), `);
    writer.edits.after(end, ")");
    return;
  }
  const isUsed = !writer.analysis.unused.has(tree);
  if (isUsed && argument.object.type !== "Super") writeUsedUpdate(writer, tree, info);
  else {
    if (isUsed) hideValues(writer, start, end);
    keepMember(writer, argument, info, end);
  }
}

/**
 * `o[k]++` whose value is used: the frame has the value while a setter runs.
 * @type {Write}
 */
function writeUsedUpdate(writer, { argument, operator, prefix, start, end }, info) {
  const { edits, source } = writer;
  const room = writer.room(info, start, end);
  if (!prefix) edits.before(start, "(");
  const member = keepMember(writer, argument, info, end);
  const changes = operator === "++" ? "$R.more" : "$R.less";
  const old = `$R.numeric(${member})`;
  const worth = prefix ? `(${room} = ${changes}(${old}))` : `${changes}(${room} = ${old})`;
  // It stands for the end of the member, so that a getter is known to be called there.
  edits.replace(argument.end, 0, ` = ${worth}, ${takenFrom(room)})`, argument.end - 1);
  edits.replace(prefix ? start : positionOutsideComments(source, operator, argument.end), 2, prefix ? "(" : "");
}
