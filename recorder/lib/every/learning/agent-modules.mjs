// The agents' modules, rewritten and compiled once, and made anew as often as that is needed.

import { readFileSync } from "node:fs";
import { basename } from "node:path";
import { fileURLToPath } from "node:url";
import { Script } from "node:vm";
import { Refused } from "../../options/refused.mjs";
import { apply, defineProperty } from "../../primordials.mjs";
import { parseScript, resolveModule } from "../../program/node/internals.mjs";
import { ModuleText } from "../rewriting/module-text.mjs";
import { rewritten } from "../rewriting/rewrite.mjs";
import { fillNamespace } from "./module-namespace.mjs";

/** @typedef {import("../rewriting/rewrite.mjs").Rewritten} Rewritten */
/** @typedef {import("./module-namespace.mjs").Getters} Getters */

/**
 * @typedef {object} Module
 * @property {string} url
 * @property {Function} make its function
 * @property {(string | object)[]} imports the URLs of the modules that it imports, and what node's own export
 */

/** @param {Function} fn a module's default, which is declared without a name */
const named = (fn) => void defineProperty(fn, "name", { value: "default" });

/** Lets a generator go on, whatever the agents' code does to generators. */
const { next } = Object.getPrototypeOf(Object.getPrototypeOf((function* none() {})()));

/** @param {string} source */
const parsed = (source) => parseScript(source, { ecmaVersion: "latest", sourceType: "module" });

/** @param {string} source @returns {boolean} whether it is no module: it has none of a module's words */
function isScript(source) {
  try {
    parseScript(source, { ecmaVersion: "latest", sourceType: "script", allowReturnOutsideFunction: true });
    return true;
  } catch {
    return false;
  }
}

export class AgentModules {
  /**
   * @param {import("./node-platform.mjs").NodePlatform} platform
   * @param {boolean} [isPlain] whether nothing is to show what the modules keep
   */
  constructor(platform, isPlain = false) {
    this.platform = platform;
    this.isPlain = isPlain;
    /** @type {Map<string, Rewritten>} by the modules' URLs */
    this.texts = new Map();
    /** @type {Module[]} each after all that it imports */
    this.modules = [];
    /** @type {string | undefined} the URL of the agents' own module */
    this.entry = undefined;
    this.isEntryImported = false;
    /** @type {Record<string, object>} what node's own modules export, by their names */
    this.nodes = {};
    /** @type {WeakSet<object>} what has the exports of each module */
    this.namespaces = new WeakSet();
  }

  /**
   * Takes a module, with all that it imports.
   * @param {string} url
   * @param {boolean} [isEntry] whether it is the agents' own
   * @param {string | null} [format] as what node takes it
   */
  take(url, isEntry = false, format = "module") {
    if (this.texts.has(url)) return;
    const name = basename(fileURLToPath(url));
    if (!/\.m?js$/.test(url)) throw new Refused(`--all can't read ${name}: it takes modules in .mjs or .js files`);
    const source = readFileSync(fileURLToPath(url), "utf8").replace(/^\uFEFF/, "");
    if (format === "commonjs" || (format !== "module" && isScript(source))) {
      throw new Refused(`--all can't read ${name}: node takes it as CommonJS, and not as a module`);
    }
    const written = new ModuleText(name, source, parsed);
    const how = { url, isPlain: this.isPlain };
    if (isEntry) this.entry = url;
    let text = rewritten(written, { ...how, isAlone: isEntry });
    this.texts.set(url, text);
    /** @type {(string | object)[]} */
    const imports = [];
    for (const specifier of text.imports) imports.push(this.#imported(specifier, url));
    if (isEntry && this.isEntryImported) {
      text = rewritten(written, { ...how, isAlone: false });
      this.texts.set(url, text);
    }
    this.modules.push({ url, make: new Script(text.code, { filename: url }).runInThisContext(), imports });
  }

  /** @param {string} specifier @param {string} parent @returns {string | object} */
  #imported(specifier, parent) {
    const { url, format } = resolveModule(specifier, parent);
    if (url === this.entry) this.isEntryImported = true;
    if (!url.startsWith("node:")) {
      this.take(url, false, format ?? null);
      return url;
    }
    this.nodes[url] ??= this.platform.module(url);
    return this.nodes[url];
  }

  /**
   * Makes all modules anew.
   * @param {{ namespace?: (exports: object, url: string) => void }} calls what rewritten code calls
   * @returns {Map<string, Record<string, any>>} what each exports, by their URLs
   */
  made(calls) {
    /** @type {Map<string, Record<string, any>>} */
    const exports = new Map(this.modules.map(({ url }) => [url, Object.create(null)]));
    for (const own of exports.values()) this.namespaces.add(own);
    const begun = this.modules.map(({ url, make, imports }) => {
      const own = /** @type {Record<string, any>} */ (exports.get(url));
      calls.namespace?.(own, url);
      const others = imports.map((one) => (typeof one === "string" ? exports.get(one) : one));
      /** @type {(getters: Getters, stars: number[]) => void} */
      const exported = (getters, stars) => fillNamespace(own, getters, stars.map((at) => others[at]));
      return make(calls, { imports: others, exported, named });
    });
    // At first all functions are there that modules declare, and what they export. Then each runs.
    for (const body of [...begun, ...begun]) apply(next, body, []);
    return exports;
  }
}
