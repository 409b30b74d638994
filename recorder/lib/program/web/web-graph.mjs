// The modules and scripts of a program for browsers. A file is a module if a module imports it, whatever its name or
// package says. Node's own modules aren't there.

import { methodOf, replaceNeeded } from "../../agent/ordinary/patch.mjs";
import { apply } from "../../primordials.mjs";
import { FreshModules } from "../modules/fresh-modules.mjs";
import { ModuleWrap } from "../node/internals.mjs";
import { nodeError } from "../node/node-error.mjs";
import { Scripts, placeOfImport } from "./scripts.mjs";

const EngineException = DOMException;
const { TextDecoder: EngineDecoder, TypeError: EngineTypeError, URL: EngineURL } = /** @type {any} */ (globalThis);

/** The types of modules in a blob or in `data:`. */
const JAVASCRIPT = /^(?:text|application)\/(?:x-)?(?:java|ecma)script\s*(?:[;,]|$)/i;

const ANY_TYPE = /(?:)/;

/** A specifier that is a URL, or a part of one from its module's on. */
const IS_URL = /^(?:\.{0,2}\/|file:)/;

/** @param {string | Uint8Array} source @returns {string} */
const textOf = (source) => (typeof source === "string" ? source : new EngineDecoder().decode(source));

/** @typedef {import("../modules/fresh-modules.mjs").ModuleContext} ModuleContext */

/** @type {ModuleContext} */
const MODULE = Object.freeze({ format: "module" });

export class WebModuleGraph extends FreshModules {
  #scripts = new Scripts();
  #refuse;
  /** @type {Map<string, string>} the texts of the run's modules, by URL */
  #texts = new Map();
  /** @type {(() => void) | undefined} */
  #begun = undefined;
  /** Whether `import.meta.resolve` asks for a URL, which nothing is loaded from. */
  #isAsked = false;

  /** @type {import("./blobs.mjs").Blobs | undefined} */
  blobs = undefined;

  /** @type {{ url: string, content?: import("./blobs.mjs").Content } | undefined} what the thread begins with */
  first = undefined;

  /**
   * One for each thread.
   * @param {object} given
   * @param {(what: string, place?: string) => void} given.refuse called with what a program uses that isn't simulated
   */
  constructor({ refuse }) {
    super();
    this.#refuse = refuse;
    replaceNeeded(ModuleWrap.prototype, "evaluate", (engine) => methodOf((module, given) => {
      const evaluation = apply(engine, module, given);
      this.#begun?.();
      this.#begun = undefined;
      return evaluation;
    }, engine));
  }

  /** Forgets all modules and scripts, for the next run. */
  begin() {
    super.begin();
    this.#texts.clear();
    this.#scripts.clear();
    const { loader } = this;
    const { importMetaInitialize: initialize } = loader;
    loader.importMetaInitialize = (/** @type {any} */ meta, /** @type {any} */ module) =>
      this.#describe(apply(initialize, loader, [meta, module]));
  }

  /** @param {any} meta what node gives to a module; a browser gives less */
  #describe(meta) {
    delete meta.dirname;
    delete meta.filename;
    delete meta.main;
    const { resolve } = meta;
    meta.resolve = (/** @type {string} */ specifier) => {
      this.#isAsked = true;
      try {
        return resolve(specifier);
      } finally {
        this.#isAsked = false;
      }
    };
  }

  /**
   * A browser doesn't know which file a link leads to: the URL of a module behind a link has the link.
   * @type {FreshModules["find"]}
   */
  find(specifier, parent, find) {
    if (specifier.startsWith("blob:")) return { url: specifier, format: "module" };
    const { url: found, format } = super.find(specifier, parent, find);
    const url = IS_URL.test(specifier) ? new EngineURL(specifier, parent).href : found;
    if (url.startsWith("file:")) return { url, format: format === "json" ? format : "module" };
    if (url.startsWith("data:")) return { url, format: JAVASCRIPT.test(url.slice("data:".length)) ? "module" : format };
    // Then it returns the URL, as if there were no such file.
    if (this.#isAsked) throw nodeError("ERR_MODULE_NOT_FOUND", `${url} isn't loaded`, { url });
    const place = placeOfImport(this.#texts.get(`${parent}`) ?? "", specifier);
    this.#refuse(`${url} with --web`, place && `${parent}:${place.line}:${place.column}`);
    return { url };
  }

  /** @type {FreshModules["read"]} */
  read(url, known = MODULE) {
    const { source, ...read } = this.#read(url, known, JAVASCRIPT);
    const text = textOf(source);
    this.#texts.set(url, text);
    return { ...read, responseURL: url, source: text };
  }

  /** @param {string} url @param {ModuleContext} known @param {RegExp} types those that a blob may have */
  #read(url, known, types) {
    // Node itself refuses a module in a blob that is to be no JavaScript.
    const isBlob = url.startsWith("blob:") && known.importAttributes?.type === undefined;
    if (!isBlob) return super.read(withQuery(url), known);
    const content = this.#contentOf(url);
    if (content !== undefined && types.test(content.type)) return { format: "module", source: content.bytes };
    throw new EngineTypeError(`Failed to fetch dynamically imported module: ${url}`);
  }

  /**
   * Runs the module that a thread begins with.
   * @param {string} url of a file, `data:` or `blob:`
   * @param {() => void} [begun] called when it has begun: it may await something at its top level
   * @returns {Promise<void>} settled once it is evaluated
   */
  async enter(url, begun) {
    this.#begun = begun;
    await super.enter(url);
  }

  /** @param {string} url of a file that node would run @returns {"classic" | "module"} what a page would make of it */
  typeOf(url) {
    return this.formatOf(url) === "commonjs" ? "classic" : "module";
  }

  /** @param {string} url of a script that isn't a module @returns {() => void} runs it in the global scope */
  script(url) {
    let source;
    try {
      ({ source } = this.#read(url, MODULE, ANY_TYPE));
    } catch {
      throw new EngineException(`The script at '${url}' failed to load.`, "NetworkError");
    }
    return this.#scripts.compiled(url, textOf(source));
  }

  /** @param {string} url @returns {import("./blobs.mjs").Content | undefined} what the thread began with it has once */
  #contentOf(url) {
    const { first } = this;
    if (first?.url !== url) return this.blobs?.at(url);
    this.first = undefined;
    return first.content;
  }
}

/** @param {string} url @returns {string} by which node reads all of `data:`; it leaves out what is behind a `?` */
const withQuery = (url) => (url.startsWith("data:") ? url.replaceAll("?", "%3F") : url);
