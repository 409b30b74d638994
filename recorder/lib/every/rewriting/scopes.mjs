// The scopes of a module, the names that they bind, and the functions in which they are.

import { childrenOf, isClass, isFunction, namesIn } from "./tree.mjs";

/** @typedef {import("./tree.mjs").Tree} Tree */

/**
 * @typedef {"module" | "function" | "class" | "block" | "catch" | "for" | "each" | "switch"} ScopeKind
 * @typedef {"let" | "const" | "var" | "function" | "class" | "import" | "param" | "catch" | "self" | "pseudo"}
 * BindingKind
 */

/**
 * @typedef {object} Temporary a value that the engine would keep on its stack, and that is kept in the frame
 * @property {number} id
 * @property {number} from the place in the text where it is there
 * @property {number} to where it isn't needed any more
 */

/** A name that a scope binds. `this` and its like are names too. */
export class Binding {
  /** @param {string} name @param {BindingKind} kind @param {Scope} scope @param {number} index */
  constructor(name, kind, scope, index) {
    this.name = name;
    this.kind = kind;
    this.scope = scope;
    this.index = index;
    /** @type {Reference[]} */
    this.references = [];
    this.isAlwaysShown = false;
    /** Whether it may get another value than the first. */
    this.isAssigned = kind === "var";
    /** Whether a function captures it. */
    this.isCaptured = false;
    /** @type {Binding | undefined} of a class's own name: the one outside, if that is the same unless it is assigned */
    this.same = undefined;
  }

  /** @param {number} place @returns {boolean} whether a function that is made there can show what it is */
  isShownAt(place) {
    return this.scope.isVisibleAt(place) || !this.isAssigned;
  }

  /** Whether it is in what a scope shows: `this` and its like only if they are used. */
  get isShown() {
    return this.isAlwaysShown || (this.kind !== "pseudo" && this.kind !== "self") || this.references.length > 0;
  }
}

/**
 * @typedef {object} Reference a use of a name
 * @property {string} name
 * @property {Scope} scope in which it is used
 * @property {number} start
 * @property {number} end
 * @property {Info | null} within the function in which it is used
 * @property {boolean} reads
 * @property {Binding} [binding]
 */

/** What is known about a function. */
export class Info {
  /** @param {number} id @param {Tree} tree @param {Info | null} outer */
  constructor(id, tree, outer) {
    this.id = id;
    this.tree = tree;
    this.outer = outer;
    this.start = tree.start;
    this.end = tree.end;
    /** @type {Tree[]} the parameters that it declares at its beginning */
    this.declared = [];
    /** @type {Temporary[]} */
    this.temporaries = [];
    /** @type {Set<Binding>} of outer functions, to which it or what is in it refers */
    this.captured = new Set();
    /** Whether it is written as a getter or a setter. */
    this.isAccessor = false;
    /** Whether what it has can't be shown while it runs. */
    this.isHidden = false;
    /** Whether what it captures can't be shown. */
    this.isOpaque = false;
    /** @type {Tree | undefined} the class or the object whose method it is */
    this.holder = undefined;
    /** @type {Tree | undefined} the class or the object of its `super` */
    this.superOf = undefined;
    /** Whether that isn't shown. */
    this.usesSuper = false;
    /** @type {Map<Tree, Set<Binding>> | undefined} what is alive after each expression, when it was looked for */
    this.alive = undefined;
    /** Whether it is a constructor. */
    this.makes = false;
    /** Where its object gets its fields before it has a frame, if there is nothing else to show then. */
    this.beginsAt = -1;
    /** @type {Binding[]} what the engine needs of its own names when it has ended */
    this.needed = [];
  }
}

let nextId = 0;

/** @returns {number} that no other scope, function or class has, in all modules */
export function newId() {
  nextId += 1;
  return nextId;
}

export class Scope {
  /** @param {Tree} tree @param {Scope | null} outer @param {Info | null} within @param {ScopeKind} kind */
  constructor(tree, outer, within, kind) {
    this.id = newId();
    this.tree = tree;
    this.outer = outer;
    this.within = within;
    this.kind = kind;
    /** @type {Map<string, Binding>} */
    this.names = new Map();
    this.start = tree.start;
    this.end = tree.end;
    /** @type {string | undefined} a function's name that is declared once more */
    this.repeated = undefined;
    /** From which place of the text on there is what shows its names. */
    this.visibleFrom = tree.start;
  }

  /** @param {number} place @returns {boolean} whether what shows its names is there */
  isVisibleAt(place) {
    return place >= this.visibleFrom;
  }

  /** @param {string} name @param {BindingKind} kind */
  declare(name, kind) {
    const known = this.names.get(name);
    if (known?.kind === "function") this.repeated ??= name;
    if (known === undefined) this.names.set(name, new Binding(name, kind, this, this.names.size));
    else if (kind === "function") known.kind = kind;
    else if (kind === "var") known.isAssigned = true;
  }

  /** @param {Tree | null} pattern @param {BindingKind} kind */
  declareAll(pattern, kind) {
    for (const name of namesIn(pattern)) this.declare(name, kind);
  }

  /** @param {Tree[]} body whose `let`, `const`, functions and classes it binds */
  declareLexical(body) {
    for (const statement of body) {
      const isExport = /^Export(?:Named|Default)Declaration$/.test(statement.type);
      const declared = isExport ? statement.declaration : statement;
      if (!declared) continue;
      if (declared.type === "VariableDeclaration" && declared.kind !== "var") {
        for (const one of declared.declarations) this.declareAll(one.id, declared.kind);
      }
      if (declared.type === "FunctionDeclaration" && declared.id) this.declare(declared.id.name, "function");
      if (declared.type === "ClassDeclaration" && declared.id) this.declare(declared.id.name, "class");
    }
  }

  /** @param {Tree} tree whose `var` it binds, except those of functions in it */
  declareVariables(tree) {
    if (isFunction(tree) || isClass(tree)) return;
    if (tree.type === "VariableDeclaration" && tree.kind === "var") {
      for (const one of tree.declarations) this.declareAll(one.id, "var");
    }
    for (const child of childrenOf(tree)) this.declareVariables(child);
  }

  /** @param {string} name @returns {Binding | undefined} what it means here */
  find(name) {
    /** @type {Scope | null} */
    let scope = this;
    while (scope !== null && !scope.names.has(name)) scope = scope.outer;
    return scope?.names.get(name);
  }

  /** @returns {Binding[]} */
  shown() {
    return [...this.names.values()].filter(({ isShown }) => isShown);
  }
}
