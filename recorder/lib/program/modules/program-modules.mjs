// The modules of a program of node's. What a specifier stands for, a module's format, its errors and its `import.meta`
// are those of that node. The engine compiles CommonJS once in a thread. Load this file before anything replaces what
// node's modules export.

import path from "node:path";
import process from "node:process";
import { fileURLToPath, pathToFileURL } from "node:url";
import { apply } from "../../primordials.mjs";
import { CompiledFunctions } from "./compiled-functions.mjs";
import { FreshModules } from "./fresh-modules.mjs";
import {
  Builtins, INSIDE, Modules, SideEffectFreeRegExpPrototypeSymbolReplace, containsModuleSyntax, importsByLoader,
  kIsExecuting, loadBuiltinModule, makeRequireFunction, translators,
} from "../node/internals.mjs";
import { TestRunner } from "./test-runner.mjs";

// Node makes a context of its own when it first needs one, for the text of an error. From now on it has one.
SideEffectFreeRegExpPrototypeSymbolReplace(/a/, "", "");

const required = Modules.createRequire(import.meta.url);

/** @type {readonly string[]} */
const NO_NAMES = Object.freeze([]);
/** What the code of a module of CommonJS is given. */
const NAMES = Object.freeze(["exports", "require", "module", "__filename", "__dirname"]);

/** The formats of files that only node's loader of ES modules takes. A file of no known format is CommonJS. */
const OF_LOADER = Object.freeze(["module", "module-typescript", "wasm"]);

/** Between the folder of a module and what it requires. */
const BETWEEN = "\0";

/**
 * Node remembers in each thread where it found what a module requires. When it finds it there again, it takes a module
 * that an ES module imports, and that hasn't run yet, for one that is running. In a run nothing was found yet.
 * @returns {() => void} has node forget all places; call it when no module is loaded
 */
function notePlaces() {
  const { _load: load } = Modules;
  /** @type {Set<string>} folders and what was required by a module in them */
  const places = new Set();
  Modules._load = function (/** @type {any[]} */ ...given) {
    const { 0: request, 1: parent } = given;
    if (parent && !`${request}`.startsWith("node:")) places.add(`${parent.path}${BETWEEN}${request}`);
    return apply(load, this, given);
  };
  return () => {
    const { _resolveFilename: resolve } = Modules;
    // Node forgets a place when the module there isn't loaded. Here it then loads a builtin, which is there.
    Modules._resolveFilename = () => "module";
    for (const place of places) {
      const [folder, request] = place.split(BETWEEN);
      load(request, { path: folder });
    }
    Modules._resolveFilename = resolve;
    places.clear();
  };
}

/**
 * A builtin is required before an ES module gets it, so that what isn't simulated is replaced in it. Node makes it an
 * ES module once. It gets what the builtin has now, such as the run's class of threads.
 */
function requireBuiltins() {
  const translated = translators.get("builtin");
  translators.set("builtin", /** @this {any} @param {any[]} given */ function translate(...given) {
    // A program may have replaced iterators, so the list isn't taken apart.
    const url = given[0];
    required(url);
    loadBuiltinModule(url.slice("node:".length), url).syncExports();
    return apply(translated, this, given);
  });
}

/** Programs don't find node's inside, which the thread has for the recorder. */
function hideInside() {
  const isShown = (/** @type {string} */ id) => !INSIDE.test(id);
  const shown = [...Builtins.map.keys()].filter((id) => isShown(id) && Builtins.canBeRequiredByUsers(id));
  Builtins.setRealmAllowRequireByUsers([]);
  for (const id of shown) Builtins.allowRequireByUsers(id);
  Modules.builtinModules = Modules.builtinModules.filter(isShown);
}

export class ProgramModules extends FreshModules {
  #forgetPlaces = notePlaces();
  #functions = new CompiledFunctions();
  tests;

  /**
   * One for each thread: it replaces how the thread compiles CommonJS, and node's loader.
   * @param {{ refuse: (what: string) => void }} given `refuse` ends the run
   */
  constructor({ refuse }) {
    super();
    const owner = this;
    this.tests = new TestRunner(refuse);
    const { _compile: compile } = Modules.prototype;
    /** @this {any} @param {string} text @param {string} file @param {string | undefined} format */
    Modules.prototype._compile = function (text, file, format) {
      const compiled = owner.#compiledFile(text, file, format);
      if (compiled === undefined) return apply(compile, this, [text, file, format]);
      const { exports } = this;
      this[kIsExecuting] = true;
      const result = apply(compiled, exports, [exports, makeRequireFunction(this), this, file, path.dirname(file)]);
      this[kIsExecuting] = false;
      return result;
    };
    requireBuiltins();
    hideInside();
  }

  /** Forgets all modules, for the next run. */
  begin() {
    this.tests.clear();
    super.begin();
    this.#forgetPlaces();
    for (const name of NAMES) delete (/** @type {any} */ (globalThis))[name];
    /** @type {any} */ (process).mainModule = undefined;
  }

  /**
   * Runs the module that a thread begins with.
   * @param {string} url of a file, or `data:`
   * @returns {Promise<void>} settled once it is evaluated
   */
  async enter(url) {
    const isOfLoader = !url.startsWith("file:") || url.endsWith(".mjs") || OF_LOADER.includes(`${this.formatOf(url)}`);
    if (isOfLoader) await super.enter(url);
    else Modules._load(fileURLToPath(url), null, true);
  }

  /**
   * Runs the code of a worker that has `eval: true`. Here it is a function's body, since what a script declares would
   * stay for the next run.
   * @param {string} code
   * @param {string} [name]
   * @returns {Promise<unknown> | void} settled once it is evaluated, if it is an ES module
   */
  evaluate(code, name = "[worker eval]") {
    const module = new Modules(name);
    module.filename = path.join(process.cwd(), name);
    module.paths = Modules._nodeModulePaths(process.cwd());
    const parent = pathToFileURL(module.filename).href;
    const importModuleDynamically = (/** @type {string} */ specifier, /** @type {any} */ _, /** @type {any} */ given) =>
      this.loader.import(specifier, parent, given);
    let evaluated;
    try {
      evaluated = this.#functions.compiled(code, NO_NAMES, { filename: name, importModuleDynamically });
    } catch (error) {
      if (!containsModuleSyntax(code, name, null, "no CJS variables")) throw error;
      return this.loader.eval(code, `${pathToFileURL(process.cwd())}/[eval1]`, true);
    }
    Object.assign(globalThis, {
      module, exports: module.exports, require: makeRequireFunction(module), __filename: name, __dirname: ".",
    });
    evaluated.call(globalThis);
  }

  /**
   * @param {string} text
   * @param {string} file
   * @param {string | undefined} format
   * @returns {Function | undefined} undefined if node itself has to run it, or to say what is wrong with it
   */
  #compiledFile(text, file, format) {
    if (format !== undefined && format !== "commonjs") return undefined;
    try {
      return this.#functions.compiled(text, NAMES, { filename: file, importModuleDynamically: importsByLoader });
    } catch {
      return undefined;
    }
  }
}
