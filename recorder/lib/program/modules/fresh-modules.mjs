// The modules of a thread's program, which node's own loader makes anew for each run: each run has a loader of its own.
// It reads modules at once. To find a file takes long, so a thread looks for it once.

import fs from "node:fs";
import { fileURLToPath } from "node:url";
import { types } from "node:util";
import { apply, mapGet, mapSet, uncurried } from "../../primordials.mjs";
import { Modules, defaultLoadSync, loaders } from "../node/internals.mjs";

/** @typedef {{ url: string, format?: string }} FoundModule what a specifier stands for; the format if it is known */
/** @typedef {{ format: string, source: any, responseURL?: string }} ReadModule what was read of a module */
/** @typedef {{ format?: string, importAttributes?: Record<string, string> }} ModuleContext of one that is to be read */

const { Map: EngineMap } = globalThis;
const { readFileSync, statSync } = /** @type {any} */ (fs);
const begins = uncurried(String.prototype.startsWith);

/** The URL of a file whose text is a script or a module. */
const SCRIPT = /^file:.*\.[cm]?js$/;

/** So many files are remembered: some programs make other URLs in each run. */
const MOST_FILES = 1_000;

/** @type {Map<string, { found: FoundModule, file: string }>} what was found, and its path, by module and specifier */
let files = new EngineMap();

/** @param {string} file its path @returns {boolean} */
export const isThere = (file) => statSync(file, { throwIfNoEntry: false })?.isFile() === true;

/** @param {string} url @param {ModuleContext} [known] @returns {ReadModule} */
function readAtOnce(url, known) {
  // What runs a module of CommonJS reads it. Node itself reads what is no script.
  const text = known?.format === "commonjs" ? ""
    : SCRIPT.test(url) ? readFileSync(fileURLToPath(url), "utf8").replace(/^\uFEFF/, "") : undefined;
  const read = defaultLoadSync(url, { ...known, source: text });
  return read.format === "commonjs" ? { ...read, source: null } : read;
}

export class FreshModules {
  /** @type {any} node's own, of the run */
  loader = undefined;
  /** @type {(url: string, known?: ModuleContext) => ReadModule} */
  #read = readAtOnce;

  /** Forgets all modules, for the next run. Call it before the first one, too. */
  begin() {
    Modules._cache = { __proto__: null };
    // Where files were found. They may be gone.
    Modules._pathCache = { __proto__: null };
    const loader = loaders.createModuleLoader();
    loaders.getOrInitializeCascadedLoader = () => loader;
    const { load } = loader;
    // A later node reads at once by itself, and has the method that finds what a module requests.
    const isLater = !types.isAsyncFunction(load);
    if (isLater) this.#read = (url, known) => apply(load, loader, [url, known]);
    loader.load = (/** @type {string} */ url, /** @type {ModuleContext} */ known) => this.read(url, known);
    const name = isLater ? "resolveSync" : "defaultResolve";
    const { [name]: find } = loader;
    loader[name] = (/** @type {any[]} */ ...given) => {
      // A program may have replaced iterators, so the list isn't taken apart.
      const { 0: first, 1: second } = given;
      const specifier = isLater ? second.specifier : first;
      return this.find(`${specifier}`, isLater ? first : second, () => apply(find, loader, given));
    };
    this.loader = loader;
  }

  /**
   * What a specifier stands for. A file that was found before in this thread is taken as long as it is there.
   * @param {string} specifier
   * @param {string | undefined} parent URL of the module that imports it
   * @param {() => FoundModule} find finds it as node does
   * @returns {FoundModule}
   */
  find(specifier, parent, find) {
    const key = `${parent} ${specifier}`;
    const known = mapGet(files, key);
    if (known !== undefined && isThere(known.file)) return known.found;
    const found = find();
    if (files.size === MOST_FILES) files = new EngineMap();
    if (begins(found.url, "file:")) mapSet(files, key, { found, file: fileURLToPath(found.url) });
    return found;
  }

  /** @param {string} url @param {ModuleContext} [known] @returns {ReadModule} */
  read(url, known) {
    return this.#read(url, known);
  }

  /** @param {string} url of a module @returns {string | undefined} its format as node finds it, if there is one */
  formatOf(url) {
    try {
      return this.#read(url, {}).format;
    } catch {
      return undefined;
    }
  }

  /**
   * Runs the module that a thread begins with.
   * @param {string} url
   * @returns {Promise<void>} settled once it is evaluated
   */
  async enter(url) {
    await this.loader.import(url, undefined, { __proto__: null }, undefined, true);
  }
}
