// Goes over a module's tree: which scopes and functions there are, and what each name means. A module in which
// something can't be shown is refused, with its line.

import { Refused } from "../../options/refused.mjs";
import { Info, Scope, newId } from "./scopes.mjs";
import { ownNameIn } from "./naming.mjs";
import { coreOf, declaredParameters } from "./parameters.mjs";
import { givesElements, givesMembers, hasExpressions, isMetaUrl, isMethod, namesIn, runsCode } from "./tree.mjs";
import { VISITS } from "./visits.mjs";

/** @typedef {import("./tree.mjs").Tree} Tree */
/** @typedef {import("./scopes.mjs").Reference} Reference */

/** @typedef {{ scope: Scope, within: Info | null }} EnclosingScope where something is */

export class Analysis {
  /** @param {import("./module-text.mjs").ModuleText} text */
  constructor(text) {
    const { tree, source } = text;
    this.text = text;
    this.source = source;
    /** @type {Scope[]} */
    this.scopes = [];
    /** @type {Info[]} */
    this.functions = [];
    /** @type {Map<Tree, Info>} */
    this.infos = new Map();
    /** @type {Map<Tree, Scope>} the scope that a tree has of its own */
    this.own = new Map();
    /** @type {Reference[]} */
    this.references = [];
    /** @type {Map<string, Reference>} by their places */
    this.byPlace = new Map();
    /** @type {[number, number][]} places at which there is something that can't be shown */
    this.hidden = [];
    /** @type {Set<number>} where members of objects begin that have but a name */
    this.shorthand = new Set();
    /** @type {Set<Tree>} expressions whose values nobody uses */
    this.unused = new Set();
    /** @type {Set<string>} the names of private methods: what they are can't change */
    this.privateMethods = new Set();
    /** @type {Set<string>} the names of other private members */
    this.privateOthers = new Set();
    /** @type {Map<Tree, Tree>} functions that are made of what fields begin with */
    this.fieldValues = new Map();
    /** @type {Map<Tree, Scope>} patterns that declare names, each with the scope in which it does */
    this.declaring = new Map();
    /** Whether it has templates with tags, each with strings that are always the same object. */
    this.hasTags = false;
    /** @type {Tree[]} each `url` of `import.meta` */
    this.metaUrls = [];
    this.tree = tree;
    this.root = this.newScope(tree, null, null, "module");
    this.#visitModule();
    this.#resolve();
  }

  #visitModule() {
    const { root, tree } = this;
    const reserved = ownNameIn(tree);
    if (reserved !== undefined) this.refuse(reserved, "a name that the recorder uses here");
    root.declareLexical(tree.body);
    root.declareVariables(tree);
    this.visitAll(tree.body, { scope: root, within: null });
  }

  /**
   * @param {Tree} tree
   * @param {string} what it is
   * @returns {never}
   */
  refuse(tree, what) {
    const place = `${this.text.file}:${this.text.lineOf(tree.start)}`;
    throw new Refused(`--all can't show what an agent keeps at ${place}: ${what}`);
  }

  /** @param {Info | null} within whose state can't be shown while it runs */
  hide(within) {
    if (within !== null) within.isHidden = true;
  }

  /**
   * @param {Tree} tree
   * @param {Scope | null} outer
   * @param {Info | null} within
   * @param {import("./scopes.mjs").ScopeKind} kind
   */
  newScope(tree, outer, within, kind) {
    const scope = new Scope(tree, outer, within, kind);
    this.scopes.push(scope);
    return scope;
  }

  /** @param {string} name @param {Tree} tree @param {EnclosingScope} here @param {boolean} reads */
  refer(name, tree, { scope, within }, reads) {
    const reference = { name, scope, start: tree.start, end: tree.end, within, reads };
    this.references.push(reference);
    this.byPlace.set(`${tree.start}.${tree.end}`, reference);
  }

  /**
   * @param {Tree} tree an identifier or its like
   * @returns {import("./scopes.mjs").Binding | undefined} what it means
   */
  bindingOf(tree) {
    return this.byPlace.get(`${tree.start}.${tree.end}`)?.binding;
  }

  /** @param {(Tree | null)[]} trees @param {EnclosingScope} here */
  visitAll(trees, here) {
    for (const tree of trees) this.visit(tree, here);
  }

  /** @param {Tree | null | undefined} tree @param {EnclosingScope} here */
  visit(tree, here) {
    if (tree === null || tree === undefined) return;
    if (!Object.hasOwn(VISITS, tree.type)) this.refuse(tree, `a ${tree.type}, which isn't known`);
    VISITS[tree.type](this, tree, here);
  }

  /**
   * A method with `super` depends on the object to which it belongs.
   * @param {Tree} tree
   * @param {EnclosingScope} here
   */
  visitSuper(tree, here) {
    this.refer("this", tree, here, true);
    /** @type {Info[]} */
    const around = [];
    let at = here.within;
    for (; at !== null && at.tree.type === "ArrowFunctionExpression"; at = at.outer) around.push(at);
    if (at === null || at.holder === undefined) this.refuse(tree, "`super` outside of a method");
    for (const info of [...around, at]) info.superOf = at.holder;
  }

  /** @param {Tree} tree @param {EnclosingScope} here @param {Tree} [holder] the class or object whose method it is */
  visitFunction(tree, { scope, within }, holder) {
    const info = new Info(newId(), tree, within);
    info.holder = holder;
    const own = this.newScope(tree, scope, info, "function");
    info.declared = declaredParameters(tree);
    own.visibleFrom = (info.declared[0] ?? tree.body).start;
    this.infos.set(tree, info);
    this.own.set(tree, own);
    this.functions.push(info);
    // What comes after an `await` is done when the agent has ended, and such an agent is refused.
    info.isHidden = tree.generator;
    const named = tree.type === "ArrowFunctionExpression" ? [] : ["this", "arguments", "new.target"];
    for (const name of named) own.declare(name, "pseudo");
    for (const parameter of tree.params) own.declareAll(parameter, "param");
    const here = { scope: own, within: info };
    for (const parameter of tree.params) this.#visitParameter(parameter, here);
    if (tree.body.type === "BlockStatement") this.#visitBody(tree, here);
    else this.visit(tree.body, here);
    const { id, type } = tree;
    if (type === "FunctionExpression" && id && !own.names.has(id.name)) own.declare(id.name, "self");
  }

  /** @param {Tree} parameter @param {EnclosingScope} here */
  #visitParameter(parameter, here) {
    this.visitPattern(parameter, here, true);
    const core = coreOf(parameter);
    if (core.type !== "Identifier" && runsCode(core)) this.hidden.push([core.start, core.end]);
  }

  /**
   * Expressions among the parameters don't see what the braces declare.
   * @param {Tree} tree a function with braces
   * @param {EnclosingScope} here
   */
  #visitBody({ body, params }, { scope, within }) {
    let own = scope;
    if (params.some(hasExpressions) || (within?.declared.length ?? 0) > 0) {
      own = this.newScope(body, scope, within, "block");
      this.own.set(body, own);
    }
    own.declareLexical(body.body);
    own.declareVariables(body);
    this.visitAll(body.body, { scope: own, within });
  }

  /** @param {Tree} tree an object's literal @param {EnclosingScope} here */
  visitObject(tree, here) {
    for (const one of tree.properties) {
      if (one.type !== "Property") {
        this.visit(one, here);
        continue;
      }
      if (one.shorthand) this.shorthand.add(one.value.start);
      if (one.computed) this.visit(one.key, here);
      if (isMethod(one)) this.visitFunction(one.value, here, tree);
      else this.visit(one.value, here);
      this.noteAccessor(one);
    }
  }

  /** @param {Tree} member of a class or of an object's literal */
  noteAccessor({ kind, value }) {
    if (kind === "get" || kind === "set") /** @type {Info} */ (this.infos.get(value)).isAccessor = true;
  }

  /** @param {Tree} tree @param {EnclosingScope} here */
  visitLoop(tree, here) {
    if (tree.await) this.refuse(tree, "`for await`");
    const head = tree.init ?? tree.left;
    let inside = here;
    if (head?.type === "VariableDeclaration" && head.kind !== "var") {
      const own = this.newScope(tree, here.scope, here.within, tree.type === "ForStatement" ? "for" : "each");
      if (tree.type !== "ForStatement") own.visibleFrom = tree.body.start;
      for (const one of head.declarations) own.declareAll(one.id, head.kind);
      this.own.set(tree, own);
      inside = { scope: own, within: here.within };
    }
    if (tree.type === "ForStatement") this.visit(tree.init, inside);
    else this.visit(tree.right, here);
    if (tree.left) {
      if (tree.left.type === "VariableDeclaration") this.visit(tree.left, inside);
      else this.visitPattern(tree.left, inside, false);
    }
    if (tree.update) this.unused.add(tree.update);
    this.visitAll([tree.test, tree.update, tree.body], inside);
  }

  /** @param {Tree} tree @param {EnclosingScope} here */
  visitMember(tree, here) {
    const { object, property, computed } = tree;
    if (isMetaUrl(tree)) {
      this.metaUrls.push(tree);
      return;
    }
    this.visit(object, here);
    if (computed) this.visit(property, here);
  }

  /** @param {Tree} tree @param {EnclosingScope} here */
  visitExport(tree, here) {
    if (!tree.source) for (const { local } of tree.specifiers) this.refer(local.name, local, here, true);
    this.visit(tree.declaration, here);
  }

  /** @param {Tree} tree @param {EnclosingScope} here */
  visitBlock(tree, { scope, within }) {
    const own = this.newScope(tree, scope, within, "block");
    own.declareLexical(tree.body);
    this.own.set(tree, own);
    this.visitAll(tree.body, { scope: own, within });
  }

  /** @param {Tree} tree @param {EnclosingScope} here */
  visitCatch(tree, { scope, within }) {
    const own = this.newScope(tree, scope, within, "catch");
    own.visibleFrom = tree.body.start;
    own.declareAll(tree.param, "catch");
    this.own.set(tree, own);
    const here = { scope: own, within };
    this.visitPattern(tree.param, here, true);
    // What was caught is nowhere else while it is taken apart.
    if (runsCode(tree.param)) this.hidden.push([tree.param.start, tree.param.end]);
    own.declareLexical(tree.body.body);
    this.visitAll(tree.body.body, here);
  }

  /** @param {Tree} tree @param {EnclosingScope} here */
  visitSwitch(tree, here) {
    this.visit(tree.discriminant, here);
    const own = this.newScope(tree, here.scope, here.within, "switch");
    own.declareLexical(tree.cases.flatMap((/** @type {Tree} */ { consequent }) => consequent));
    this.own.set(tree, own);
    const inside = { scope: own, within: here.within };
    for (const { test, consequent } of tree.cases) this.visitAll([test, ...consequent], inside);
  }

  /** @param {Tree} tree @param {EnclosingScope} here */
  visitDeclarator(tree, here) {
    this.declaring.set(tree.id, here.scope);
    this.visitPattern(tree.id, here, true);
    if (tree.id.type !== "Identifier" && runsCode(tree.id)) this.hidden.push([tree.id.start, tree.id.end]);
    this.visit(tree.init, here);
  }

  /** @param {Tree} tree @param {EnclosingScope} here */
  visitAssignment(tree, here) {
    const { left, right, operator } = tree;
    this.needsNoMeta(left);
    if (left.type === "Identifier") {
      this.refer(left.name, left, here, operator !== "=");
      if (operator !== "=") this.#noteWrite(left);
    } else if (left.type === "MemberExpression") this.visit(left, here);
    else {
      this.visitPattern(left, here, false);
      // What is taken apart is nowhere else.
      if (!givesMembers(left)) this.hidden.push([left.start, right.start]);
    }
    this.visit(right, here);
  }

  /** @param {Tree} tree @param {EnclosingScope} here */
  visitUpdate(tree, here) {
    this.needsNoMeta(tree.argument);
    this.visit(tree.argument, here);
    if (tree.argument.type === "Identifier") this.#noteWrite(tree.argument);
  }

  /** @param {Tree} tree a name that is read, and gets another value */
  #noteWrite({ start, end }) {
    const reference = this.byPlace.get(`${start}.${end}`);
    if (reference !== undefined) this.references.push({ ...reference, reads: false });
  }

  /**
   * @param {Tree | null} pattern
   * @param {EnclosingScope} here
   * @param {boolean} isDeclared whether its names are declared by it
   */
  visitPattern(pattern, here, isDeclared) {
    if (pattern === null) return;
    switch (pattern.type) {
      case "Identifier":
        if (!isDeclared) this.refer(pattern.name, pattern, here, false);
        return;
      case "ObjectPattern":
        for (const one of pattern.properties) {
          if (one.computed) this.visit(one.key, here);
          this.visitPattern(one.type === "RestElement" ? one.argument : one.value, here, isDeclared);
        }
        return;
      case "ArrayPattern":
        for (const one of pattern.elements) this.visitPattern(one, here, isDeclared);
        return;
      case "AssignmentPattern":
        this.visitPattern(pattern.left, here, isDeclared);
        this.visit(pattern.right, here);
        return;
      case "RestElement":
        this.visitPattern(pattern.argument, here, isDeclared);
        return;
      default:
        this.needsNoMeta(pattern);
        this.visit(pattern, here);
    }
  }

  /**
   * @param {Tree} pattern of a declaration
   * @param {Tree | null} value
   * @returns {boolean} whether it makes no difference if all that it names is taken first: no code can ask meanwhile
   */
  takesElements(pattern, value) {
    const scope = this.declaring.get(pattern);
    return givesElements(pattern, value) && namesIn(pattern).every((name) => scope?.find(name)?.isCaptured === false);
  }

  /** @param {Tree} tree that gets another value, or is deleted */
  needsNoMeta(tree) {
    if (isMetaUrl(tree)) this.refuse(tree, "a `url` of `import.meta` that is changed");
  }

  /** Finds what each name means, and what functions capture. */
  #resolve() {
    for (const reference of this.references) {
      reference.binding = reference.scope.find(reference.name);
      if (reference.binding === undefined) this.#needsConstant(reference);
      else if (!reference.reads) reference.binding.isAssigned = true;
    }
    for (const reference of this.references) {
      const { binding: found, within } = reference;
      if (found === undefined) continue;
      const binding = found.same?.isAssigned === false ? found.same : found;
      reference.binding = binding;
      binding.references.push(reference);
      if (binding.kind === "import" && !reference.reads) this.refuse(reference, "an import that gets another value");
      if (binding.scope.kind === "module") continue;
      const { within: owner } = binding.scope;
      for (let at = within; at !== null && at !== owner; at = at.outer) at.captured.add(binding);
      if (within !== owner) binding.isCaptured = true;
    }
    for (const info of this.functions) this.#needsCells(info);
  }

  /** @param {Info} info of a function: what it captures can't be shown if that isn't known where it is made */
  #needsCells(info) {
    info.isOpaque = [...info.captured].some((binding) => !binding.isShownAt(info.start));
    // In its braces such a name may mean something else.
    const { body } = info.tree;
    const inner = body.type === "BlockStatement" ? this.own.get(body)?.names : undefined;
    const isOther = [...info.captured].some(({ name, scope }) => !scope.isVisibleAt(info.start) && inner?.has(name));
    if (info.isOpaque || isOther) info.isHidden = true;
  }

  /** @param {Reference} reference to what the module doesn't bind: what the realm has, or nothing */
  #needsConstant({ name, start, reads }) {
    // A module's function has others than the module, which has none.
    if (name === "arguments") this.refuse({ start }, "`arguments` outside of a function");
    if (!reads && Reflect.has(globalThis, name)) this.refuse({ start }, `\`${name}\` gets another value`);
  }
}
