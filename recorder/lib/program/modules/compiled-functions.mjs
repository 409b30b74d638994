// CommonJS modules as functions. Each run gets other ones, but the engine compiles a text at most twice in a thread.
// The first time it is done as node does it, which also shows whether the text is a function's. When the text comes
// again, it is compiled as a script with that function in it. The engine keeps a script's code, with the functions in
// it that have run.

import vm from "node:vm";
import { uncurried } from "../../primordials.mjs";

const { Script, compileFunction } = /** @type {any} */ (vm);
const run = uncurried(Script.prototype.runInThisContext);

/** @typedef {{ filename: string, importModuleDynamically: Function | symbol }} CompileOptions as vm takes them */

/** @param {string} text @param {readonly string[]} names @param {CompileOptions} options @returns {any} */
function scriptOf(text, names, options) {
  // Only a text by itself may begin like a command (`#!`). In the script it isn't the beginning.
  const body = text.startsWith("#!") ? `//${text.slice(2)}` : text;
  return new Script(`(function (${names.join(", ")}) {\n${body}\n})`, { ...options, lineOffset: -1 });
}

export class CompiledFunctions {
  /** @type {Map<string, { text: string, names: readonly string[], script: any }>} by file */
  #known = new Map();

  /**
   * @param {string} text
   * @param {readonly string[]} names of the function's parameters
   * @param {CompileOptions} options the same for each text of this file
   * @returns {Function} a new one
   */
  compiled(text, names, options) {
    const known = this.#known.get(options.filename);
    if (known === undefined || known.text !== text || known.names !== names) {
      const compiled = compileFunction(text, names, options);
      this.#known.set(options.filename, { text, names, script: undefined });
      return compiled;
    }
    known.script ??= scriptOf(text, names, options);
    return run(known.script);
  }
}
