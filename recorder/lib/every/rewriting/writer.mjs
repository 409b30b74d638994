// Rewrites a module so that all that its functions keep while they run can be shown. Each call of a function has a
// frame with the cells of its names, and what the engine would keep on its stack is kept in the frame. The order in
// which things are evaluated stays.

import { writeClass, writeMethods } from "./class-writer.mjs";
import { positionOutsideComments } from "./comments.mjs";
import { Edits } from "./source-edits.mjs";
import { EXPRESSIONS } from "./expressions.mjs";
import { NAME_OF_KEY, givingName, namesOfFunctions } from "./function-names.mjs";
import { DEFAULT } from "./linked-modules.mjs";
import { writeParameters } from "./parameters.mjs";
import { STATEMENTS, WITHOUT_FRAME } from "./statements.mjs";
import { childrenOf, isClass, isConstant, isFunction, isMethod, runsCode } from "./tree.mjs";
import { WriteGuards } from "./write-guards.mjs";

/** @typedef {import("./tree.mjs").Tree} Tree */
/** @typedef {import("./scopes.mjs").Info} Info */
/** @typedef {import("./scopes.mjs").Scope} Scope */

/** @typedef {(writer: CodeWriter, tree: Tree, info: Info) => void} Write writes a tree, with all that is in it */
/** @typedef {(writer: CodeWriter, tree: Tree, info: Info | null) => void} WriteAnywhere also without a frame */

const LEAVES = "} finally { $R.leave($f); }";

/** @type {Record<string, Write>} by the kinds of trees; none of the others is in a function that has a frame */
export const WRITES = { ...EXPRESSIONS, ...STATEMENTS };

export class CodeWriter {
  /** @param {import("./analysis.mjs").Analysis} analysis */
  constructor(analysis) {
    this.analysis = analysis;
    this.source = analysis.source;
    this.edits = new Edits(analysis.source);
    this.names = namesOfFunctions(analysis.tree);
    this.guards = new WriteGuards(analysis, this.edits);
    this.temporaries = 0;
    this.variables = 0;
    /**
     * Where variables can be declared for the code that is written now.
     * @type {import("./source-edits.mjs").SourceEdit | undefined}
     */
    this.declared = undefined;
    /** @type {Map<Tree, string>} the variables that have classes and objects with a `super` */
    this.homes = new Map();
  }

  /**
   * @param {Tree | null | undefined} tree
   * @param {Info | null} info of the function in which it is; null: there is no frame, so no value is kept
   * @param {boolean} [isMethodsValue] whether it is the function of a method
   */
  write(tree, info, isMethodsValue = false) {
    if (tree === null || tree === undefined) return;
    this.guards.write(tree);
    if (tree.type === "ObjectExpression") this.#noteKeys(tree);
    if (isFunction(tree)) this.#writeFunction(tree, isMethodsValue);
    else if (isClass(tree)) writeClass(this, tree, info);
    else if (tree.type === "ObjectExpression" && tree.properties.some(isMethod)) writeMethods(this, tree, info);
    else if (info === null) this.#writeWithoutFrame(tree);
    else {
      const write = WRITES[tree.type];
      if (write === undefined) this.analysis.refuse(tree, `a ${tree.type} in such a place`);
      write(this, tree, info);
    }
  }

  /** @param {Tree} tree */
  #writeWithoutFrame(tree) {
    const write = WITHOUT_FRAME[tree.type];
    if (write === undefined) this.writeAll(childrenOf(tree), null);
    else write(this, tree, null);
  }

  /** @param {(Tree | null)[]} trees @param {Info | null} info */
  writeAll(trees, info) {
    for (const tree of trees) this.write(tree, info);
  }

  /**
   * Gives a frame room for a value.
   * @param {Info} info
   * @param {number} from where the value is there
   * @param {number} to where it isn't needed any more
   * @param {[number, number]} [also] from where to where it is there besides
   * @returns {string} what it is kept in
   */
  room(info, from, to, also) {
    const id = this.temporaries;
    this.temporaries += 1;
    info.temporaries.push({ id, from, to });
    if (also !== undefined) info.temporaries.push({ id, from: also[0], to: also[1] });
    return `$f.t[${id}]`;
  }

  /**
   * Keeps the value of an expression in the frame.
   * @param {Info} info
   * @param {Tree} tree
   * @param {number} to where it isn't needed any more
   * @param {[string, string]} [around] what makes of it what is kept, before it and behind it
   * @returns {string} what it is kept in
   */
  keep(info, tree, to, around = this.#kept(tree)) {
    const [before, after] = around;
    const room = this.room(info, tree.end, to);
    this.within(tree, `(${room} = ${before}`, `${after})`);
    return room;
  }

  /** @param {Tree} tree @returns {[string, string]} what stands around it */
  #kept(tree) {
    return givingName(isClass(tree) ? this.names.get(tree) : undefined);
  }

  /** @param {Tree} tree @param {string} before what goes before it @param {string} after and behind it */
  within(tree, before, after) {
    this.edits.before(tree.start, before);
    this.edits.after(tree.end, after);
  }

  /**
   * Keeps the values of operands while later ones are evaluated.
   * @param {Info} info
   * @param {(Tree | null)[]} operands
   * @param {number} end where all have been used
   */
  keepOperands(info, operands, end) {
    let last = -1;
    operands.forEach((one, at) => {
      if (runsCode(one)) last = at;
    });
    for (const one of operands.slice(0, Math.max(last, 0))) {
      if (one === null || !this.isKept(one)) continue;
      // What is written in a spread element makes a list of it.
      this.keep(info, one.type === "SpreadElement" ? one.argument : one, end);
    }
  }

  /** @param {Tree} tree @returns {boolean} whether its value has to be kept: it might be another one if read again */
  isKept(tree) {
    return !isConstant(tree) && !(tree.type === "Identifier" && this.isFixed(tree));
  }

  /** @param {Tree} tree an identifier @returns {boolean} whether it means a global of the engine */
  isGlobal(tree) {
    return this.analysis.bindingOf(tree) === undefined && Reflect.has(globalThis, tree.name);
  }

  /** @param {Tree} tree an identifier @returns {boolean} whether it means the same whenever it is read */
  isFixed(tree) {
    const binding = this.analysis.bindingOf(tree);
    if (binding === undefined) return this.isGlobal(tree);
    const { kind, references, scope } = binding;
    const isConstant = ["const", "function", "class"].includes(kind);
    return scope.kind === "module" && isConstant && references.every(({ reads }) => reads);
  }

  /** @param {Scope} scope @param {Info | null} info @returns {string} what makes its names visible */
  environment(scope, info) {
    const names = scope.shown().map(({ index, name }) => `$i === ${index} ? ${name} : `);
    const made = `$R.environment(($i) => ${names.join("")}undefined)`;
    return info === null ? made : `$f.e[${scope.id}] = ${made}`;
  }

  /** @param {Scope | undefined} scope @param {Info | null} info @returns {boolean} whether its names must be visible */
  isSeen(scope, info) {
    const shown = scope?.shown() ?? [];
    return info === null ? shown.some(({ isCaptured }) => isCaptured) : shown.length > 0;
  }

  /** @param {Info} info @returns {string} the cells of what it captures */
  cells({ captured, isOpaque, start, superOf }) {
    const home = superOf && this.homes.get(superOf);
    if (isOpaque || (captured.size === 0 && home === undefined)) return "null";
    const cells = [...captured].map((one) => cellOf(one, start));
    return `[${[...cells, ...(home === undefined ? [] : [shownBy(home)])].join(", ")}]`;
  }

  /**
   * What a class or an object with a `super` is: a variable has it, of which there is one for each of them.
   * @param {Tree} tree
   * @returns {string | undefined} the variable, if there can be one
   */
  home(tree) {
    const using = this.analysis.functions.filter(({ superOf }) => superOf === tree);
    const name = using.length > 0 ? this.variable() : undefined;
    if (name !== undefined) this.homes.set(tree, name);
    for (const info of using) {
      info.usesSuper = name === undefined;
      if (info.usesSuper && info.makes) info.isHidden = true;
    }
    return name;
  }

  /**
   * @param {Info} info of a function
   * @param {boolean} [isOfKey] whether its name is that of a key
   * @returns {[string, string]} what stands around it, and makes it known
   */
  registering(info, isOfKey = false) {
    const isHidden = info.usesSuper || info.isOpaque;
    const more = isHidden || isOfKey ? `, ${isHidden}${isOfKey ? ", true" : ""}` : "";
    return [`$R.fn(${info.id}, ${this.cells(info)}, `, `${more})`];
  }

  /**
   * The functions that a block declares are there from its beginning.
   * @param {Tree[]} statements
   * @returns {string[]} expressions that make them known
   */
  declaredIn(statements) {
    return statements.flatMap((statement) => {
      const tree = /^Export/.test(statement.type) ? statement.declaration : statement;
      if (tree?.type !== "FunctionDeclaration") return [];
      return [this.registering(this.infoOf(tree)).join(tree.id?.name ?? DEFAULT)];
    });
  }

  /** @param {number} at the beginning of a block @param {Tree[]} statements */
  registerDeclared(at, statements) {
    for (const registers of this.declaredIn(statements)) this.edits.before(at, `${registers};`);
  }

  /** @param {number} at where variables can be declared @param {() => void} write writes the code that has them */
  declaring(at, write) {
    const { declared } = this;
    this.declared = this.edits.before(at, "");
    write();
    this.declared = declared;
  }

  /** @returns {string | undefined} a variable of the code that is written now, if that can have one */
  variable() {
    if (this.declared === undefined) return undefined;
    const name = `$k${this.variables}`;
    this.variables += 1;
    this.declared.text += ` let ${name};`;
    return name;
  }

  /** @param {Tree} tree a function, or a class @returns {Info} */
  infoOf(tree) {
    return /** @type {Info} */ (this.analysis.infos.get(tree));
  }

  /** @param {Tree} tree @returns {boolean} whether there is nothing in its braces */
  #isEmpty(tree) {
    return tree.end - tree.start === 2;
  }

  /** @param {Tree} block @param {string} text that goes before its closing brace */
  atEnd(block, text) {
    if (this.#isEmpty(block)) this.edits.before(block.end - 1, text);
    else this.edits.after(block.end - 1, text);
  }

  /** @param {Tree} tree @param {boolean} isMethodsValue */
  #writeFunction(tree, isMethodsValue) {
    const { edits } = this;
    const info = this.infoOf(tree);
    if (tree.type !== "FunctionDeclaration" && !isMethodsValue) {
      const name = this.names.get(tree);
      const [before, after] = givingName(name);
      const [begins, ends] = this.registering(info, name === NAME_OF_KEY);
      edits.before(tree.start, begins + before);
      edits.after(tree.end, after + ends);
    }
    const frame = info.isHidden ? null : info;
    if (frame) this.#needsDeclaredOnce(tree);
    // The number in the comment is found in the function's text.
    const enters = `const $f = $R.enter(${info.id}, ${this.cells(info)}); try {`;
    const first = `${frame ? enters : `/*$R.enter(${info.id},*/`}${this.#argumentsOf(tree)}`;
    const begins = `${first}${this.#environmentOf(tree, frame)}`;
    const { declared } = info;
    this.withoutVariables(() => {
      if (declared.length > 0) writeParameters(this, tree, frame, { declared, begins });
      else this.writeAll(tree.params, null);
    });
    this.#writeBody(tree, frame, { isBegun: declared.length > 0, begins });
  }

  /**
   * @param {Tree} tree a function
   * @param {Info | null} frame of it, if it has one
   * @param {{ isBegun: boolean, begins: string }} how what it begins with, and whether that is there by now
   */
  #writeBody(tree, frame, { isBegun, begins }) {
    const { edits } = this;
    const { body } = tree;
    const at = body.type === "BlockStatement" ? body.start + 1
      : positionOutsideComments(this.source, "=>", tree.params.at(-1)?.end ?? tree.start) + 2;
    if (body.type === "BlockStatement") {
      edits.before(at, `${isBegun ? "" : begins}${this.#environmentOf(body, frame)}`);
      if (isBegun) edits.after(body.end, `${frame ? LEAVES : ""} }`);
      this.declaring(at, () => {
        this.registerDeclared(at, body.body);
        if (frame && !isBegun) this.atEnd(body, LEAVES);
        this.writeAll(body.body, frame);
      });
    } else {
      edits.before(at, isBegun ? "" : `{ ${begins}`);
      this.declaring(at, () => {
        edits.before(at, " return (");
        edits.after(tree.end, `); ${frame ? LEAVES : ""} }`);
        this.write(body, frame);
      });
    }
  }

  /**
   * In the braces of a function with a frame there is a block.
   * @param {Tree} tree
   */
  #needsDeclaredOnce(tree) {
    const { own } = this.analysis;
    const repeated = (own.get(tree.body) ?? own.get(tree))?.repeated;
    if (repeated !== undefined) this.analysis.refuse(tree, `\`${repeated}\`, which a function declares twice`);
  }

  /** @param {Tree} tree a function @returns {string} what its `arguments` get, if it uses them */
  #argumentsOf(tree) {
    const given = this.analysis.own.get(tree)?.names.get("arguments");
    return given?.kind === "pseudo" && given.references.length > 0 ? " $R.likeArrays(arguments);" : "";
  }

  /** @param {Tree} tree a function, or its braces @param {Info | null} frame @returns {string} what shows its names */
  #environmentOf(tree, frame) {
    const scope = this.analysis.own.get(tree);
    const isSeen = scope !== undefined && (frame !== null || this.isSeen(scope, frame));
    return isSeen ? ` const $e${scope.id} = ${this.environment(scope, frame)};` : "";
  }

  /** @param {Tree} tree an object of whose keys functions get their names */
  #noteKeys({ properties }) {
    for (const { key, value } of properties) {
      if (this.names.get(value) !== NAME_OF_KEY || isClass(value)) continue;
      this.within(key, "$R.named((", "))");
    }
  }

  /** @param {() => void} write writes code that can't have variables of its own */
  withoutVariables(write) {
    const { declared } = this;
    this.declared = undefined;
    write();
    this.declared = declared;
  }
}

/** @param {string} name that keeps its value @returns {string} a cell of its own for it */
const shownBy = (name) => `[$R.environment(() => ${name}), 0]`;

/** @param {import("./scopes.mjs").Binding} binding @param {number} place @returns {string} what shows it there */
function cellOf({ index, name, scope }, place) {
  return scope.isVisibleAt(place) ? `[$e${scope.id}, ${index}]` : shownBy(name);
}
