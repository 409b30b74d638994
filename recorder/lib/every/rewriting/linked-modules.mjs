// A module as a function: what it imports and exports goes by an object, so that the module can be made anew.

import { positionOutsideComments } from "./comments.mjs";
import { keyOfShorthand } from "./naming.mjs";
import { childrenOf, isClass, namesIn } from "./tree.mjs";

/** @typedef {import("./tree.mjs").Tree} Tree */
/** @typedef {import("./analysis.mjs").Analysis} Analysis */
/** @typedef {import("./source-edits.mjs").Edits} Edits */

/**
 * @typedef {object} Linked
 * @property {string[]} imports the specifiers of what it imports, by their positions
 * @property {string} begins what the module's function begins with
 * @property {Set<string>} exported the names of its own bindings that it exports
 */

/** The name of what a module exports as its default, if that has no name. */
export const DEFAULT = "$default";

const NAMES_DEFAULT = ` $m.named(${DEFAULT});`;

/** @param {Tree} name an identifier or a string @returns {string} */
const nameOf = (name) => name.name ?? name.value;

class Linker {
  /** @param {Analysis} analysis @param {Edits} edits */
  constructor(analysis, edits) {
    this.analysis = analysis;
    this.edits = edits;
    /** @type {string[]} */
    this.imports = [];
    /** @type {Map<string, string>} what stands for a name that is imported */
    this.imported = new Map();
    /** @type {[string, string][]} what is exported, and what reads it */
    this.exports = [];
    /** @type {number[]} of which imports all is exported */
    this.stars = [];
    /** Whether its default is a function that is declared without a name. */
    this.isDeclared = false;
    /** @type {[number, number][]} what is left out of the text */
    this.left = [];
  }

  /** @param {Tree} statement @param {number} [to] */
  remove(statement, to = statement.end) {
    this.left.push([statement.start, to]);
    this.edits.replace(statement.start, to - statement.start, "");
  }

  /** @param {Tree} source @returns {string} what has the exports of a module that is imported */
  from(source) {
    this.imports.push(source.value);
    return `$m.imports[${this.imports.length - 1}]`;
  }

  /** @param {Tree} statement */
  takeImport(statement) {
    const from = this.from(statement.source);
    for (const one of statement.specifiers) {
      const name = one.type === "ImportDefaultSpecifier" ? "default" : one.imported && nameOf(one.imported);
      this.imported.set(one.local.name, name === undefined ? from : `${from}[${JSON.stringify(name)}]`);
    }
    this.remove(statement);
  }

  /** @param {Tree} statement `export * from` */
  takeStar(statement) {
    const from = this.from(statement.source);
    if (statement.exported) this.exports.push([nameOf(statement.exported), from]);
    else this.stars.push(this.imports.length - 1);
    this.remove(statement);
  }

  /** @param {Tree} statement */
  takeNamed(statement) {
    const { declaration, specifiers, source } = statement;
    if (declaration) {
      const ids = declaration.id ? [declaration.id] : declaration.declarations.map((/** @type {Tree} */ { id }) => id);
      for (const name of ids.flatMap(namesIn)) this.exports.push([name, name]);
      this.remove(statement, declaration.start);
      return;
    }
    const from = source && this.from(source);
    for (const { local, exported } of specifiers) {
      this.exports.push([nameOf(exported), from ? `${from}[${JSON.stringify(nameOf(local))}]` : local.name]);
    }
    this.remove(statement);
  }

  /** @param {Tree} statement */
  takeDefault(statement) {
    const { declaration, start, end } = statement;
    const isDeclared = /Declaration$/.test(declaration.type) && declaration.id;
    if (isDeclared) {
      this.exports.push(["default", declaration.id.name]);
      this.remove(statement, declaration.start);
      return;
    }
    this.exports.push(["default", DEFAULT]);
    const { source } = this.analysis;
    if (declaration.type === "FunctionDeclaration") {
      // It is there before the module runs.
      this.edits.before(positionOutsideComments(source, "(", declaration.start), ` ${DEFAULT}`);
      this.remove(statement, declaration.start);
      this.isDeclared = true;
      return;
    }
    const behind = positionOutsideComments(source, "default", start) + "default".length;
    this.edits.replace(start, behind - start, `const ${DEFAULT} = ({ "default": `);
    const isEnded = source[end - 1] === ";";
    this.edits.after(isEnded ? end - 1 : end, ` })["default"]${isEnded ? "" : ";"}`);
  }

  /** Puts what stands for names that are imported in their places. */
  linkReferences() {
    const { analysis, edits, imported, left } = this;
    const parents = parentsOfClasses(analysis.tree);
    for (const { binding, start, end } of new Set(analysis.byPlace.values())) {
      if (binding?.kind !== "import" || left.some(([from, to]) => from <= start && start < to)) continue;
      if (analysis.shorthand.has(start)) edits.before(start, `${keyOfShorthand(binding.name)}: `);
      const reads = imported.get(binding.name);
      edits.replace(start, end - start, parents.has(start) ? String(reads) : `(0, ${reads})`);
    }
  }
}

/** @param {Tree} tree @returns {Set<number>} where names begin from which classes derive: node looks at such a text */
function parentsOfClasses(tree) {
  /** @type {Set<number>} */
  const found = new Set();
  /** @param {Tree} one */
  const take = (one) => {
    if (isClass(one) && one.superClass?.type === "Identifier") found.add(one.superClass.start);
    childrenOf(one).forEach(take);
  };
  take(tree);
  return found;
}

/**
 * Writes what a module imports and exports as a function's body has it.
 * @param {Analysis} analysis
 * @param {Edits} edits
 * @returns {Linked}
 */
export function linked(analysis, edits) {
  const linker = new Linker(analysis, edits);
  for (const statement of analysis.tree.body) {
    if (statement.type === "ImportDeclaration") linker.takeImport(statement);
    else if (statement.type === "ExportAllDeclaration") linker.takeStar(statement);
    else if (statement.type === "ExportNamedDeclaration") linker.takeNamed(statement);
    else if (statement.type === "ExportDefaultDeclaration") linker.takeDefault(statement);
  }
  linker.linkReferences();
  const { exports, imported, imports, stars } = linker;
  const getters = exports.map(([name, local]) => `${JSON.stringify(name)}: () => ${imported.get(local) ?? local}`);
  return {
    imports,
    begins: `$m.exported({ ${getters.join(", ")} }, [${stars.join(", ")}]);${linker.isDeclared ? NAMES_DEFAULT : ""}`,
    exported: new Set(exports.map(([, local]) => local)),
  };
}
