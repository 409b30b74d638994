// Which names of a function it can still read itself after an expression was evaluated: backward over its tree.

import { coreOf } from "./parameters.mjs";
import { givesMembers, goesThrough, isFunction, isMethod, namesIn } from "./tree.mjs";

/** @typedef {import("./tree.mjs").Tree} Tree */
/** @typedef {import("./scopes.mjs").Binding} Binding */
/** @typedef {ReadonlySet<Binding>} Alive */

/**
 * @typedef {object} Target where a jump leads
 * @property {string[]} labels
 * @property {"loop" | "switch" | "label"} kind
 * @property {Alive} out what is alive behind it
 * @property {Alive} again what is alive where a loop goes on
 */

/** @type {Alive} */
const NONE = new Set();
const LOGICAL = new Set(["||=", "&&=", "??="]);

/** @param {Alive} one @param {Alive} other @returns {Alive} */
function union(one, other) {
  if (other.size === 0 || one === other) return one;
  if (one.size === 0) return other;
  const all = new Set(one);
  for (const each of other) all.add(each);
  return all;
}

/** @param {Alive} alive @param {Iterable<Binding>} bindings @returns {Alive} */
function without(alive, bindings) {
  const less = new Set(alive);
  for (const each of bindings) less.delete(each);
  return less.size === alive.size ? alive : less;
}

/** @param {Tree} tree a case of a switch @returns {Tree[]} */
const statementsOf = ({ consequent }) => consequent;

/** @typedef {(live: Liveness, tree: Tree, out: Alive) => Alive} LiveBefore what is alive before a tree */

/** @type {LiveBefore} */
const nothing = (_live, _tree, out) => out;

/** @type {LiveBefore} */
const name = (live, tree, out) => live.read(tree, out);

/** @param {(tree: Tree) => (Tree | null)[]} partsOf a tree, in the order of evaluation @returns {LiveBefore} */
const inOrder = (partsOf) => (live, tree, out) => live.all(partsOf(tree), out);

const ofArgument = inOrder(({ argument }) => [argument]);
const ofExpression = inOrder(({ expression }) => [expression]);
const ofSides = inOrder(({ left, right }) => [left, right]);
const ofNew = inOrder(({ callee, arguments: given }) => [callee, ...given]);
const ofMember = inOrder(({ computed, key, value }) => (computed ? [key, value] : [value]));

/** @type {LiveBefore} its parts are evaluated in this order, except what its methods and fields do later */
const ofClass = inOrder(({ superClass, body: { body } }) =>
  [superClass, ...body.map((/** @type {Tree} */ { computed, key }) => (computed ? key : null))]);

/** @type {LiveBefore} of a pattern that isn't gone over as one */
const ofPattern = (live, tree, out) => live.pattern(tree, out);

/** @type {Record<string, LiveBefore>} by the kinds of trees; one without a row is never evaluated */
export const LIVE_BEFORE = {
  ArrayExpression: inOrder(({ elements }) => elements),
  ArrayPattern: ofPattern,
  ArrowFunctionExpression: nothing,
  AssignmentExpression: (live, tree, out) => live.assignment(tree, out),
  AssignmentPattern: ofPattern,
  AwaitExpression: ofArgument,
  BinaryExpression: ofSides,
  BlockStatement: (live, tree, out) => live.outside(tree, live.block(tree.body, out)),
  BreakStatement: (live, tree) => union(live.targetOf(tree, ["loop", "switch"]).out, live.caught),
  CallExpression: (live, { callee, arguments: given, optional }, out) =>
    live.before(callee, live.link(optional, live.all(given, out))),
  ChainExpression: (live, { expression }, out) => live.chain(expression, out),
  ClassDeclaration: ofClass,
  ClassExpression: ofClass,
  ConditionalExpression: (live, tree, out) => live.choice(tree, out),
  ContinueStatement: (live, tree) => union(live.targetOf(tree, ["loop"]).again, live.caught),
  DebuggerStatement: nothing,
  DoWhileStatement: (live, { test, body }, out) => live.loop(out, (head, target) => {
    target.again = live.before(test, union(out, head));
    return live.before(body, target.again);
  }),
  EmptyStatement: nothing,
  ExpressionStatement: ofExpression,
  ForInStatement: (live, tree, out) => live.each(tree, out),
  ForOfStatement: (live, tree, out) => live.each(tree, out),
  ForStatement: (live, tree, out) => live.outside(tree, live.before(tree.init, live.loop(out, (head, target) => {
    target.again = live.before(tree.update, head);
    // A loop without a test is left by a jump, or by what is thrown.
    return live.before(tree.test, union(tree.test ? out : live.caught, live.before(tree.body, target.again)));
  }))),
  FunctionDeclaration: nothing,
  FunctionExpression: nothing,
  Identifier: name,
  IfStatement: (live, tree, out) => live.choice(tree, out),
  LabeledStatement: (live, tree, out) => live.labeled(tree, out),
  Literal: nothing,
  LogicalExpression: (live, { left, right }, out) => live.before(left, union(out, live.before(right, out))),
  MemberExpression: (live, { object, property, computed, optional }, out) =>
    live.before(object, live.link(optional, computed ? live.before(property, out) : out)),
  MetaProperty: name,
  NewExpression: ofNew,
  ObjectExpression: (live, { properties }, out) => live.object(properties, out),
  ObjectPattern: ofPattern,
  PrivateIdentifier: nothing,
  Property: ofMember,
  RestElement: ofPattern,
  ReturnStatement: (live, { argument }) => live.before(argument, live.caught),
  SequenceExpression: inOrder(({ expressions }) => expressions),
  SpreadElement: ofArgument,
  Super: name,
  SwitchStatement: (live, tree, out) => live.outside(tree, live.switched(tree, out)),
  // Nothing makes texts of the values that a tag gets.
  TaggedTemplateExpression: inOrder(({ tag, quasi: { expressions } }) => [tag, ...expressions]),
  TemplateLiteral: inOrder(({ expressions }) => expressions),
  ThisExpression: name,
  ThrowStatement: (live, { argument }) => live.before(argument, live.caught),
  TryStatement: (live, tree, out) => live.tried(tree, out),
  UnaryExpression: ofArgument,
  UpdateExpression: ofArgument,
  VariableDeclaration: (live, { declarations, kind }, out) => live.declarations(declarations, kind, out),
  WhileStatement: (live, { test, body }, out) => live.loop(out, (head, target) => {
    target.again = head;
    return live.before(test, union(out, live.before(body, head)));
  }),
  YieldExpression: ofArgument,
};

class Liveness {
  /** @param {import("./scopes.mjs").Info} info @param {import("./analysis.mjs").Analysis} analysis */
  constructor(info, analysis) {
    this.info = info;
    this.analysis = analysis;
    /** @type {Map<Tree, Alive>} what is alive after each tree */
    this.after = new Map();
    /** @type {Target[]} */
    this.targets = [];
    /** @type {Map<Tree, Tree>} what stands for the step of a loop, or the read of a member, by what gets the value */
    this.standIns = new Map();
    /** @type {string[]} of the statement that comes now */
    this.labels = [];
    /** What is alive where something that is thrown leads. @type {Alive} */
    this.caught = NONE;
    /** What is alive behind the chain that is gone over, all of which may be left out. @type {Alive} */
    this.behindChain = NONE;
  }

  /**
   * @param {Tree | null | undefined} tree
   * @param {Alive} out what is alive after it
   * @returns {Alive} what is before it
   */
  before(tree, out) {
    if (tree === null || tree === undefined || tree.type === "FunctionDeclaration") return out;
    if (isFunction(tree)) return union(out, this.#captured(tree));
    this.note(tree, out);
    const find = LIVE_BEFORE[tree.type];
    if (find === undefined) this.analysis.refuse(tree, `a ${tree.type} in such a place`);
    // A class may read what it captures when its objects are made.
    return find(this, tree, /^Class/.test(tree.type) ? union(out, this.#captured(tree)) : out);
  }

  /** @param {Tree} tree @param {Alive} out */
  note(tree, out) {
    this.after.set(tree, union(this.after.get(tree) ?? NONE, out));
  }

  /** @param {(Tree | null)[]} trees in the order of evaluation @param {Alive} out */
  all(trees, out) {
    return trees.reduceRight((alive, tree) => this.before(tree, alive), out);
  }

  /**
   * The functions that a block declares are there from its beginning, with what they capture.
   * @param {Tree[]} statements
   * @param {Alive} out
   */
  block(statements, out) {
    return this.#declaring(statements, this.all(statements, out));
  }

  /** @param {Tree[]} statements of a block @param {Alive} alive where its functions are there */
  #declaring(statements, alive) {
    const declared = statements.filter(({ type }) => type === "FunctionDeclaration");
    return declared.reduce((all, one) => union(all, this.#captured(one)), alive);
  }

  /** @param {Tree} expression of a chain @param {Alive} out */
  chain(expression, out) {
    const { behindChain } = this;
    this.behindChain = out;
    const alive = this.before(expression, out);
    this.behindChain = behindChain;
    return alive;
  }

  /** @param {boolean} isOptional whether what comes may be left out @param {Alive} alive before that */
  link(isOptional, alive) {
    return isOptional ? union(alive, this.behindChain) : alive;
  }

  /** @param {Tree} tree a function or a class @returns {Alive} those names of this function that it captures */
  #captured(tree) {
    const captured = this.analysis.infos.get(tree)?.captured ?? NONE;
    return new Set([...captured].filter(({ scope }) => scope.within === this.info));
  }

  /** @param {Tree} tree @returns {Binding | undefined} what it means, if that is this function's own */
  #own(tree) {
    const binding = this.analysis.bindingOf(tree);
    return binding?.scope.within === this.info ? binding : undefined;
  }

  /** @param {Tree} tree @param {Alive} out */
  read(tree, out) {
    const binding = this.#own(tree);
    return binding === undefined ? out : union(out, new Set([binding]));
  }

  /** @param {Alive} alive @param {Iterable<Binding>} written @returns {Alive} what is alive before these are written */
  #unwritten(alive, written) {
    return without(alive, [...written].filter((each) => !this.caught.has(each)));
  }

  /** @param {Tree} tree that may have a scope @param {Alive} alive @returns {Alive} without the scope's own names */
  outside(tree, alive) {
    const own = this.analysis.own.get(tree);
    return own === undefined ? alive : without(alive, own.names.values());
  }

  /** @param {Tree} tree @param {Alive} out */
  assignment({ left, right, operator }, out) {
    if (left.type === "Identifier") {
      const binding = this.#own(left);
      const written = this.#unwritten(out, binding === undefined ? [] : [binding]);
      if (operator === "=") return this.before(right, written);
      if (LOGICAL.has(operator)) return this.read(left, union(out, this.before(right, out)));
      return this.read(left, this.before(right, written));
    }
    if (left.type !== "MemberExpression") {
      const begins = this.pattern(left, out);
      this.#noteSteps(left, right, begins);
      if (givesMembers(left)) this.#noteMembers(left, union(out, begins));
      return this.before(right, begins);
    }
    this.note(left, out);
    // `o.x += v` reads o.x before v.
    if (operator !== "=") this.note(left, this.before(right, out));
    const skipped = LOGICAL.has(operator) ? this.before(right, out) : NONE;
    return this.all([left.object, left.computed ? left.property : null, right], union(out, skipped));
  }

  /** @param {Tree} tree @param {Alive} out */
  choice({ test, consequent, alternate }, out) {
    return this.before(test, union(this.before(consequent, out), alternate ? this.before(alternate, out) : out));
  }

  /**
   * What methods capture can be read as soon as their object is made, and nothing shows an object that is half made.
   * @param {Tree[]} properties
   * @param {Alive} out
   */
  object(properties, out) {
    const methods = properties.filter(isMethod).map(({ value }) => value);
    return this.all(properties, methods.reduce((alive, one) => union(alive, this.#captured(one)), out));
  }

  /** @param {Tree | null} pattern that is assigned to @param {Alive} out @returns {Alive} with what it reads */
  pattern(pattern, out) {
    if (pattern === null || pattern.type === "Identifier") return out;
    if (pattern.type === "MemberExpression") return this.before(pattern, out);
    if (pattern.type === "AssignmentPattern") {
      return this.pattern(pattern.left, union(out, this.before(pattern.right, out)));
    }
    if (pattern.type === "RestElement") return this.pattern(pattern.argument, out);
    let alive = out;
    for (const one of [...(pattern.elements ?? pattern.properties)].reverse()) {
      if (one === null) continue;
      alive = this.pattern(one.type === "Property" ? one.value : one, alive);
      if (one.computed) alive = this.before(one.key, alive);
    }
    return alive;
  }

  /** @param {Tree[]} declarations @param {string} kind @param {Alive} out */
  declarations(declarations, kind, out) {
    return declarations.reduceRight((alive, tree) => {
      this.note(tree, alive);
      // A `var` without a value leaves what was.
      const written = tree.init === null && kind === "var" ? [] : this.#declared(tree.id);
      const begins = this.pattern(tree.id, this.#unwritten(alive, written));
      if (givesMembers(tree.id)) this.#noteMembers(tree.id, union(alive, begins));
      this.#noteSteps(tree.id, tree.init, begins);
      return this.before(tree.init, begins);
    }, out);
  }

  /** @param {Tree[]} parameters that a function declares at its beginning @param {Alive} out */
  parameters(parameters, out) {
    parameters.reduceRight((alive, parameter) => {
      const core = coreOf(parameter);
      const begins = this.pattern(core, this.#unwritten(alive, this.#declared(core)));
      if (givesMembers(core)) this.#noteMembers(core, union(alive, begins));
      return union(begins, this.before(parameter.right, begins));
    }, out);
  }

  /** @param {Tree} pattern @param {Tree | null} value @param {Alive} out what may be read where it is taken apart */
  #noteSteps(pattern, value, out) {
    const isBegun = this.analysis.takesElements(pattern, value) || goesThrough(pattern, value);
    if (value !== null && isBegun) this.note(this.#standIn(value, "BeginOfSteps"), out);
  }

  /** @param {Tree} pattern @param {Alive} out what may still be read where it gives a name a member */
  #noteMembers(pattern, out) {
    for (const { value } of pattern.properties) this.note(this.#standIn(value, "NameOfMember"), out);
  }

  /**
   * @param {Tree} pattern
   * @returns {Binding[]} the names that it declares, if each is declared once in this function
   */
  #declared(pattern) {
    const scopes = this.analysis.scopes.filter(({ within, start, end }) =>
      within === this.info && start <= pattern.start && pattern.end <= end);
    return namesIn(pattern).flatMap((name) => {
      const found = scopes.filter(({ names }) => names.has(name)).flatMap(({ names }) => names.get(name) ?? []);
      return found.length === 1 ? found : [];
    });
  }

  /** @param {Alive} out @param {(head: Alive, target: Target) => Alive} step @returns {Alive} */
  loop(out, step) {
    /** @type {Target} */
    const target = { labels: this.#takeLabels(), kind: "loop", out, again: NONE };
    this.targets.push(target);
    let alive = NONE;
    for (;;) {
      const next = union(alive, step(alive, target));
      if (next.size === alive.size) break;
      alive = next;
    }
    this.targets.pop();
    return alive;
  }

  #takeLabels() {
    const { labels } = this;
    this.labels = [];
    return labels;
  }

  /** @param {Tree} tree @param {("loop" | "switch")[]} kinds @returns {Target} */
  targetOf({ label }, kinds) {
    const targets = [...this.targets].reverse();
    const found = targets.find(({ labels, kind }) =>
      (label ? labels.includes(label.name) : kinds.some((one) => one === kind)));
    return /** @type {Target} */ (found);
  }

  /** @param {Tree} tree @param {Alive} out */
  labeled({ label, body }, out) {
    this.labels = [...this.labels, label.name];
    if (/^(?:For|While|DoWhile|Labeled|Switch)/.test(body.type)) return this.before(body, out);
    this.targets.push({ labels: this.#takeLabels(), kind: "label", out, again: NONE });
    const alive = this.before(body, out);
    this.targets.pop();
    return alive;
  }

  /** @param {Tree} tree @param {Alive} out */
  each(tree, out) {
    const { left, right, body, type: kind } = tree;
    const begins = this.loop(out, (head, target) => {
      target.again = head;
      const alive = this.before(body, head);
      const isDeclared = left.type === "VariableDeclaration";
      const begins = this.pattern(isDeclared ? left.declarations[0].id : left, alive);
      const again = union(out, isDeclared ? this.outside(tree, begins) : begins);
      const { type } = isDeclared ? left.declarations[0].id : left;
      this.note(this.#standIn(left, type === "Identifier" ? "StepToName" : "StepToPattern"), again);
      return again;
    });
    if (kind === "ForOfStatement") this.note(this.#standIn(right, "BeginOfSteps"), begins);
    return this.before(right, begins);
  }

  /**
   * @param {Tree} tree that gets a value
   * @param {string} type
   * @returns {Tree} what stands for the evaluation of that, at the same place
   */
  #standIn(tree, type) {
    const known = this.standIns.get(tree) ?? { type, start: tree.start, end: tree.end };
    this.standIns.set(tree, known);
    return known;
  }

  /** @param {Tree} tree @param {Alive} out */
  switched({ discriminant, cases }, out) {
    this.targets.push({ labels: this.#takeLabels(), kind: "switch", out, again: NONE });
    const reversed = [...cases].reverse();
    let alive = out;
    let any = out;
    for (const { consequent } of reversed) {
      alive = this.all(consequent, alive);
      any = union(any, alive);
    }
    for (const { test } of reversed) any = union(any, this.before(test, any));
    this.targets.pop();
    return this.before(discriminant, this.#declaring(cases.flatMap(statementsOf), any));
  }

  /** @param {Tree} tree @param {Alive} out */
  tried({ block, handler, finalizer }, out) {
    const outer = this.caught;
    let then = out;
    if (finalizer) {
      let any = union(out, outer);
      for (const target of this.targets) any = union(any, union(target.out, target.again));
      then = this.before(finalizer, any);
      this.caught = union(outer, then);
    }
    if (handler) {
      const caught = this.block(handler.body.body, union(then, this.caught));
      this.caught = union(this.caught, this.outside(handler, this.pattern(handler.param, caught)));
    }
    const alive = this.before(block, union(then, this.caught));
    this.caught = outer;
    return alive;
  }
}

/**
 * @param {import("./scopes.mjs").Info} info of a function
 * @param {import("./analysis.mjs").Analysis} analysis
 * @returns {Map<Tree, Alive>} what is alive after each expression in it
 */
export function aliveIn(info, analysis) {
  const liveness = new Liveness(info, analysis);
  const { body } = info.tree;
  const isBlock = body.type === "BlockStatement";
  const begins = isBlock ? liveness.outside(body, liveness.block(body.body, NONE)) : liveness.before(body, NONE);
  liveness.parameters(info.declared, begins);
  return liveness.after;
}
