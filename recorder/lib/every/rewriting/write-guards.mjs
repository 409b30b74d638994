// Checks of what is written to. The object of each member that gets another value, or is deleted, goes through
// `$R.own`, which refuses the language's own objects. So does what a derived class has got, before it gets fields.

import { childrenOf } from "./tree.mjs";

/** @typedef {import("./tree.mjs").Tree} Tree */

/** @type {Record<string, (tree: Tree) => Tree>} what trees of some types write to */
const TARGETS = {
  AssignmentExpression: ({ left }) => left,
  ForInStatement: ({ left }) => left,
  ForOfStatement: ({ left }) => left,
  UnaryExpression: ({ argument, operator }) => (operator === "delete" ? argument : null),
  UpdateExpression: ({ argument }) => argument,
};

/** @param {Tree | null} target @returns {Tree[]} the members in it that get another value */
function membersIn(target) {
  switch (target?.type) {
    case "MemberExpression": return target.property.type === "PrivateIdentifier" ? [] : [target];
    case "ChainExpression": return membersIn(target.expression);
    case "ArrayPattern": return target.elements.flatMap(membersIn);
    case "ObjectPattern": return target.properties.flatMap((/** @type {Tree} */ one) => membersIn(one.value ?? one));
    case "AssignmentPattern": return membersIn(target.left);
    case "RestElement": return membersIn(target.argument);
    default: return [];
  }
}

/** @param {Tree} member @returns {boolean} whether it is in an optional chain that goes on behind its beginning */
const isLinked = ({ object }) => {
  for (let at = object; at !== undefined; at = at.object ?? at.callee) if (at.optional) return true;
  return false;
};

/** @param {Tree} member @returns {boolean} */
const isStackLimit = ({ computed, property }) => (computed ? property.value : property.name) === "stackTraceLimit";

/** @param {Tree} member of a class @returns {boolean} whether each object of the class gets it as its own */
const isOwn = ({ key, static: isStatic, type }) =>
  !isStatic && (type === "PropertyDefinition" || type === "AccessorProperty" || key?.type === "PrivateIdentifier");

/** @param {Tree} tree a class @returns {boolean} whether its objects, which may be any, get members of their own */
export const stampsObjects = ({ body: { body }, superClass }) => superClass !== null && body.some(isOwn);

/** What is done before such an object gets them. */
export const STAMPED = "$R.stamped(this)";

/** The same as a field of its own. */
export const STAMP_CHECK = `#$o = ${STAMPED}; `;

export class WriteGuards {
  /** @param {import("./analysis.mjs").Analysis} analysis @param {import("./source-edits.mjs").Edits} edits */
  constructor(analysis, edits) {
    this.analysis = analysis;
    this.edits = edits;
    /** @type {Map<Tree, Tree>} members that are written to, by the trees of their objects; those yet to be checked */
    this.open = new Map();
    this.#find(analysis.tree);
  }

  /** @param {Tree} tree */
  #find(tree) {
    for (const member of membersIn(TARGETS[tree.type]?.(tree) ?? null)) {
      if (isLinked(member)) this.analysis.refuse(member, "a `delete` behind `?.`");
      this.open.set(member.object, member);
    }
    for (const child of childrenOf(tree)) this.#find(child);
  }

  /** @param {Tree} tree that is about to be written: what stands around it is written, and what is in it isn't yet */
  write(tree) {
    const member = this.open.get(tree);
    if (member === undefined) return;
    this.open.delete(tree);
    if (tree.type === "Super") this.#writeSuper(member);
    else {
      this.edits.before(tree.start, isStackLimit(member) ? "$R.ownLimit((" : "$R.own((");
      this.edits.after(tree.end, "))");
    }
  }

  /** @param {Tree} member of `super`: it is one of `this` that gets another value */
  #writeSuper({ object, property, computed, end }) {
    const { edits, analysis: { source } } = this;
    if (computed) {
      edits.before(property.start, "($R.own(this), (");
      edits.after(property.end, "))");
    } else {
      edits.replace(object.end, end - object.end, `[($R.own(this), "${source.slice(property.start, property.end)}")]`);
    }
  }

  /** All must have been written. */
  needsAll() {
    for (const member of this.open.values()) this.analysis.refuse(member, "a write that can't be checked here");
  }
}
