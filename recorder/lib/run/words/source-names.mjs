// The names of places in the agents' code, as people read them: by source maps, and as seen from the agents' module.

import { readFileSync } from "node:fs";
import { fileURLToPath, pathToFileURL } from "node:url";
import { HERE } from "../../processes/platform.cjs";
import { realUrl } from "../../processes/real-url.mjs";
import { SourceMaps } from "./source-maps.mjs";

/** @typedef {{ file: string, text: string | null }} SourceText a file's name and its code; null: it can't be read */

// A longer file isn't handed on: nobody reads it beside a run.
const MOST_TEXT = 2 ** 20;

export class SourceNames {
  /**
   * @param {string} module the URL of the agents' module
   * @param {import("../../processes/platform.cjs").Platform} [platform]
   */
  constructor(module, platform = HERE) {
    this.module = realUrl(module);
    this.platform = platform;
    this.maps = new SourceMaps();
    /** @type {Map<string, string>} the names that were found so far */
    this.names = new Map();
    /** @type {Map<string, string>} the URLs of files, by their names */
    this.urls = new Map();
  }

  /**
   * The name of a place in the code: the file as it is seen from the folder of the agents' module, line and column.
   * @param {string} source file, line and column, as the engine shows them
   * @returns {string}
   */
  nameOf(source) {
    const known = this.names.get(source);
    if (known !== undefined) return known;
    const name = this.#madeOut(source);
    this.names.set(source, name);
    return name;
  }

  /** @param {string} [source] as `nameOf` takes it @returns {string} its name, also if the place isn't known */
  placeName = (source) => (source === undefined ? "a place that isn't known" : this.nameOf(source));

  /** @param {string} text @returns {string} a text in which places of the code are named so */
  withNames(text) {
    return text.replace(this.platform.place, (source) => this.nameOf(source));
  }

  /**
   * The code of the files in which some places are, in the order of their names.
   * @param {Iterable<string>} names of places
   * @returns {SourceText[]}
   */
  textsOf(names) {
    const files = new Set([...names].map((name) => name.replace(/(?::\d+){0,2}$/, "")));
    return [...files].sort().map((file) => ({ file, text: this.#textOf(file) }));
  }

  /** @param {string} source */
  #madeOut(source) {
    const [, file = source, rest = ""] = /^(.*?)((?::\d+){0,2})$/.exec(source) ?? [];
    const { path, isWindows } = this.platform;
    const url = path.isAbsolute(file) ? pathToFileURL(file, { windows: isWindows }).href : file;
    const isFile = url.startsWith("file:");
    const [line = 0, column = 0] = rest.split(":").slice(1).map(Number);
    if (!isFile || line === 0 || column === 0) return `${isFile ? this.#fileName(url, file) : file}${rest}`;
    const place = this.maps.original({ file: url, line, column });
    return `${this.#fileName(place.file, place.file)}:${place.line}:${place.column}`;
  }

  /** @param {string} url @param {string} other what it is called if it is no file of this machine */
  #fileName(url, other) {
    const isNear = url.startsWith("file:") && this.module.startsWith("file:");
    const name = isNear ? this.#nearName(url) : other;
    this.urls.set(name, url);
    return name;
  }

  /**
   * @param {string} url of a file
   * @returns {string} its path from the module's folder; on another drive the whole path
   */
  #nearName(url) {
    const { path, isWindows } = this.platform;
    const [from, to] = [this.module, realUrl(url)].map((each) => fileURLToPath(each, { windows: isWindows }));
    const name = path.relative(path.dirname(from), to);
    return path.isAbsolute(name) ? to : name.replaceAll(path.sep, "/");
  }

  /** @param {string} file its name */
  #textOf(file) {
    const url = this.urls.get(file) ?? "";
    try {
      const text = this.maps.textOf(url) ?? readFileSync(new URL(url), "utf8");
      return text.length > MOST_TEXT ? null : text;
    } catch {
      return null;
    }
  }
}
