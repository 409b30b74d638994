// Scripts that aren't modules, in the global scope of a thread that makes run after run. What such a script declares
// stays in that scope for good: a `let` or a class couldn't be declared again in the next run. So these become
// variables, in the same lines, and after a run the global object is as it was before.

import vm from "node:vm";
import { importsByLoader, parseScript } from "../node/internals.mjs";

const { Script } = /** @type {any} */ (vm);

/** @typedef {{ names: Set<string>, text: string, script: any }} KnownScript a script, and what it declares */
/** @typedef {{ from: number, to: number, text: string }} ScriptEdit */

/** As what a variable is declared here. */
const VARIABLE = Object.freeze({ value: undefined, writable: true, enumerable: true, configurable: true });

/** @param {any} pattern of a declaration @returns {string[]} the names that it declares */
function namesIn(pattern) {
  if (pattern === null) return [];
  if (pattern.type === "Identifier") return [pattern.name];
  const inner = pattern.elements ?? pattern.properties ?? [pattern.left ?? pattern.argument ?? pattern.value];
  return inner.flatMap(namesIn);
}

/** @param {any} node @returns {boolean} whether it has a scope of variables of its own */
const isFunction = ({ type }) => /Function|Class|Method/.test(type);

/**
 * The variables that a statement declares, and the functions in it.
 * @param {any} node
 * @returns {string[]}
 */
function variablesOf(node) {
  if (node === null || typeof node !== "object") return [];
  if (Array.isArray(node)) return node.flatMap(variablesOf);
  if (node.type === "FunctionDeclaration") return [node.id.name];
  if (typeof node.type !== "string" || isFunction(node)) return [];
  const own = node.type === "VariableDeclaration" && node.kind === "var" ? node.declarations : [];
  return [...own.flatMap((/** @type {any} */ { id }) => namesIn(id)), ...Object.values(node).flatMap(variablesOf)];
}

/** @param {any} node a statement of the script itself @returns {{ names: string[], edits: ScriptEdit[] }} */
function lexical({ type, kind, declarations, id, start, end }) {
  if (type === "ClassDeclaration") {
    const edits = [{ from: start, to: start, text: `var ${id.name}=` }, { from: end, to: end, text: ";" }];
    return { names: [id.name], edits };
  }
  if (type !== "VariableDeclaration" || kind === "var") return { names: [], edits: [] };
  const names = declarations.flatMap((/** @type {any} */ each) => namesIn(each.id));
  return { names, edits: [{ from: start, to: start + kind.length, text: "var".padEnd(kind.length) }] };
}

/**
 * A script whose declarations are all variables and functions, and the names that it declares.
 * @param {string} text
 * @returns {{ text: string, names: Set<string> }} the text itself if it can't be read: the engine throws why
 */
export function asVariables(text) {
  let body;
  try {
    ({ body } = parseScript(text, { ecmaVersion: "latest", sourceType: "script", allowHashBang: true }));
  } catch {
    return { text, names: new Set() };
  }
  const found = body.map(lexical);
  const edits = found.flatMap((/** @type {any} */ { edits: own }) => own);
  const edited = edits.reduceRight((/** @type {string} */ all, /** @type {ScriptEdit} */ { from, to, text: own }) =>
    `${all.slice(0, from)}${own}${all.slice(to)}`, text);
  const names = found.flatMap((/** @type {any} */ { names: own }) => own);
  return { text: edited, names: new Set([...names, ...variablesOf(body)]) };
}

export class Scripts {
  /** @type {Map<string, KnownScript>} by URL */
  #known = new Map();
  /** @type {Map<string, PropertyDescriptor | undefined>} what the global object had before the run, by names */
  #before = new Map();

  /** Nothing that a script has declared is left. */
  clear() {
    for (const [name, before] of this.#before) {
      // What was declared as a function can't be deleted.
      if (before === undefined && Reflect.deleteProperty(globalThis, name)) continue;
      if (before !== undefined && Reflect.defineProperty(globalThis, name, before)) continue;
      /** @type {any} */ (globalThis)[name] = before?.value;
    }
    this.#before.clear();
  }

  /**
   * @param {string} url
   * @param {string} text of a script
   * @returns {() => void} runs it in the global scope
   */
  compiled(url, text) {
    const known = this.#known.get(url);
    const { names, script } = known?.text === text ? known : this.#compiled(url, text);
    return () => {
      this.#declare(names);
      script.runInThisContext({ displayErrors: false });
    };
  }

  /** @param {Set<string>} names that a script declares */
  #declare(names) {
    for (const name of names) {
      if (this.#before.has(name)) continue;
      const before = Object.getOwnPropertyDescriptor(globalThis, name);
      this.#before.set(name, before);
      // A variable that is there can be deleted, and one that the script makes can't.
      if (before === undefined) Object.defineProperty(globalThis, name, VARIABLE);
    }
  }

  /** @param {string} url @param {string} text @returns {KnownScript} */
  #compiled(url, text) {
    const { names, text: edited } = asVariables(text);
    const script = new Script(edited, { filename: url, importModuleDynamically: importsByLoader });
    const known = { names, text, script };
    this.#known.set(url, known);
    return known;
  }
}

/**
 * Where a module imports another one.
 * @param {string} text of the module
 * @param {string} specifier
 * @returns {{ line: number, column: number } | undefined}
 */
export function placeOfImport(text, specifier) {
  try {
    const rules = { ecmaVersion: "latest", sourceType: "module", locations: true, allowHashBang: true };
    const { body } = parseScript(text, rules);
    const found = body.find((/** @type {any} */ { source }) => source?.value === specifier);
    return found && { line: found.loc.start.line, column: found.loc.start.column + 1 };
  } catch {
    return undefined;
  }
}
