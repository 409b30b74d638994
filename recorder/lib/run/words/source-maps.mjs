// Source maps: which place of the code that people wrote belongs to a place in compiled code. A map is in the compiled
// file itself, or in a file beside it. Both are read when a place is asked for, and never over a network.

import { readFileSync } from "node:fs";
import { SourceMap } from "node:module";

/**
 * @typedef {object} SourcePlace in a file
 * @property {string} file its URL
 * @property {number} line from 1
 * @property {number} column from 1
 */

/**
 * @typedef {object} Mapped what a file's map has
 * @property {InstanceType<typeof SourceMap>} map
 * @property {Map<string, string>} texts the code that the map itself has, by the URLs of its files
 */

const bytesFrom = Buffer.from;

// The last of them counts.
const MENTION = /\/[/*][#@]\s*sourceMappingURL=([^\s*]+)/g;

/** @param {string} url @returns {string} the text that a `data:` URL has */
function textOfData(url) {
  const comma = url.indexOf(",");
  const rest = url.slice(comma + 1);
  const isBase64 = /;base64$/i.test(url.slice(0, comma));
  return isBase64 ? bytesFrom(rest, "base64").toString("utf8") : decodeURIComponent(rest);
}

/**
 * A map's members, with the URLs of its files in place of the names that the map has for them.
 * @param {any} payload
 * @param {string} base the URL of the map
 * @returns {any}
 */
function withUrls(payload, base) {
  if (Array.isArray(payload.sections)) {
    const sections = payload.sections.map((/** @type {any} */ each) => ({ ...each, map: withUrls(each.map, base) }));
    return { ...payload, sections };
  }
  const { sourceRoot: root = "", sources } = payload;
  const before = root === "" || root.endsWith("/") ? root : `${root}/`;
  const urls = sources.map((/** @type {string | null} */ name) => new URL(`${before}${name}`, base).href);
  return { ...payload, sourceRoot: "", sources: urls };
}

/**
 * The code that a map has in itself, by the URLs of its files.
 * @param {any} payload with URLs
 * @returns {[string, string][]}
 */
function textsIn({ sections, sources = [], sourcesContent: texts = [] }) {
  if (sections !== undefined) return sections.flatMap((/** @type {any} */ { map }) => textsIn(map));
  return sources.flatMap((/** @type {string} */ url, /** @type {number} */ at) =>
    typeof texts[at] === "string" ? [[url, texts[at]]] : []);
}

export class SourceMaps {
  constructor() {
    /** @type {Map<string, Mapped | undefined>} what was read of each file so far */
    this.files = new Map();
    /** @type {Map<string, string>} the code that the maps have in themselves */
    this.texts = new Map();
  }

  /**
   * The place in the code that people wrote.
   * @param {SourcePlace} place
   * @returns {SourcePlace} the place itself, if no map says otherwise
   */
  original(place) {
    const mapped = this.#mappedOf(place.file);
    if (mapped === undefined) return place;
    // These are counted from 0.
    const found = mapped.map.findEntry(place.line - 1, place.column - 1);
    const { originalSource: file, originalLine: line, originalColumn: column } = found;
    if (file === undefined || line === undefined || column === undefined) return place;
    return { file, line: line + 1, column: column + 1 };
  }

  /**
   * The code of a file as a map that was asked for has it.
   * @param {string} file its URL
   * @returns {string | undefined}
   */
  textOf(file) {
    return this.texts.get(file);
  }

  /** @param {string} file */
  #mappedOf(file) {
    if (this.files.has(file)) return this.files.get(file);
    const mapped = mapOf(file);
    this.files.set(file, mapped);
    for (const [url, text] of mapped?.texts ?? []) this.texts.set(url, text);
    return mapped;
  }
}

/**
 * The map of a file. A map that can't be read counts as none: then places are reported as they are.
 * @param {string} file its URL
 * @returns {Mapped | undefined}
 */
function mapOf(file) {
  try {
    const mention = [...readFileSync(new URL(file), "utf8").matchAll(MENTION)].at(-1)?.[1];
    if (mention === undefined) return undefined;
    const isData = mention.startsWith("data:");
    const url = new URL(mention, file);
    const base = isData ? file : url.href;
    const payload = withUrls(JSON.parse(isData ? textOfData(mention) : readFileSync(url, "utf8")), base);
    return { map: new SourceMap(payload), texts: new Map(textsIn(payload)) };
  } catch {
    return undefined;
  }
}
