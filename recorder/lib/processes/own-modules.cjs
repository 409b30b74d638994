// The recorder's own modules as its workers and the processes of its command line get them: as functions. They are read
// once for all workers of a process. Node's loader would open each file anew for each worker, one after the other. This
// is a CommonJS module, since such a one is loaded sooner.
"use strict";

const { readFileSync } = require("node:fs");
const { fileURLToPath, pathToFileURL } = require("node:url");
const { compileFunction } = require("node:vm");

/**
 * The beginning of a line of a module that imports or exports. It has what is imported and from where; or the name, or
 * several names, of what is exported; or neither, if the line has another form.
 */
const STATEMENT = new RegExp([
  /^import (\{[^}]*\}|\w+) from "([^"]*)";$/,
  /^export (?=(?:(?:async )?function\*?|class|const) (?:(\w+)|\{([^}]*)\}))/,
  /^(?:import|export)\b.*/,
].map(({ source }) => source).join("|"), "gm");
const LATER_IMPORT = /\bawait import\("(\.[^"]*\.mjs)"\)/g;
const URL_OF_MODULE = /\bimport\.meta\.url\b/g;

/** What a module's function takes: what others export, by their URLs; `require`; and what loads a module by its URL. */
const PARAMETERS = ["modules", "require", "loaded"];

/** The path of a module that can be made a function. One of CommonJS is required as it is. */
const OWN = /^\..*\.mjs$/;

/** The recorder's folder, as a URL and as a path. */
const FOLDER_URL = new URL("../../", pathToFileURL(__filename)).href;
const FOLDER = fileURLToPath(FOLDER_URL);

/**
 * @typedef {object} OwnModule
 * @property {string} url
 * @property {string} code the body of a function of PARAMETERS; it has the lines of the file, and returns what the
 * module exports
 * @property {Uint8Array} [compiled] what the engine has made of it, for another thread
 */

/**
 * How a function's body gets what a module exports.
 * @param {string} url of the module that imports it
 * @param {string} from what the import has
 * @param {URL[]} imported to which the module is added, if it is the recorder's own
 * @returns {string}
 */
function ownerOf(url, from, imported) {
  if (!from.startsWith(".")) return `require("${from}")`;
  const file = new URL(from, url);
  if (!OWN.test(from)) return `require(${JSON.stringify(fileURLToPath(file))})`;
  imported.push(file);
  return `modules[${JSON.stringify(file.href)}]`;
}

/**
 * A module as the body of a function, and the modules that it imports.
 * @param {string} url
 * @param {string} text
 * @returns {{ code: string, imported: URL[] }}
 * @throws {Error} if it imports or exports in another form, such as `export let`
 */
function bodyOf(url, text) {
  /** @type {string[]} */
  const names = [];
  /** @type {URL[]} */
  const imported = [];
  const body = text.replace(STATEMENT, (statement, taken, from, name, several) => {
    if (from !== undefined) return `const ${taken.replaceAll(" as ", ": ")} = ${ownerOf(url, from, imported)};`;
    if (name === undefined && several === undefined) throw new Error(`${url} can't be a function's body: ${statement}`);
    names.push(...(name === undefined ? several.match(/\w+/g) : [name]));
    return "";
  }).replace(LATER_IMPORT, (_, from) => `await loaded(${JSON.stringify(new URL(from, url).href)})`)
    .replace(URL_OF_MODULE, JSON.stringify(url));
  return { code: `"use strict"; ${body}\nreturn { ${names.join(", ")} };`, imported };
}

/**
 * The path of a module. No name within the recorder's folder is written in another way in a URL; to find the path of a
 * URL takes node longer than to read the file.
 * @param {string} url
 * @returns {string}
 */
const pathOf = (url) =>
  (url.startsWith(FOLDER_URL) ? `${FOLDER}${url.slice(FOLDER_URL.length)}` : fileURLToPath(url));

/** @type {Map<string, { code: string, imported: URL[] }>} what was read, since the files stay as they are */
const read = new Map();

/**
 * A module alone, and the modules that it imports.
 * @param {URL} url
 * @returns {{ code: string, imported: URL[] }}
 */
function moduleAt(url) {
  const known = read.get(url.href);
  if (known !== undefined) return known;
  const module = bodyOf(url.href, readFileSync(pathOf(url.href), "utf8"));
  read.set(url.href, module);
  return module;
}

/**
 * A module, after all that it imports.
 * @param {URL} url
 * @returns {OwnModule[]}
 */
function ownModules(url) {
  /** @type {Map<string, string>} */
  const bodies = new Map();
  /** @param {URL} each */
  const add = (each) => {
    if (bodies.has(each.href)) return;
    const { code, imported } = moduleAt(each);
    imported.forEach(add);
    bodies.set(each.href, code);
  };
  add(url);
  return [...bodies].map(([href, code]) => ({ url: href, code }));
}

/** @type {Map<string, any>} the functions that the engine has made here of modules for other threads, by their URLs */
const made = new Map();

/**
 * The same as `ownModules`, compiled here: in a thread that gets them the engine needn't compile them, unless a flag of
 * the engine differs by then. If a module is evaluated here too, it isn't compiled again.
 * @param {URL} url
 * @returns {OwnModule[]}
 */
function compiledModules(url) {
  return ownModules(url).map((module) => {
    if (!made.has(module.url)) {
      const options = { filename: module.url, produceCachedData: true };
      made.set(module.url, compileFunction(module.code, PARAMETERS, options));
    }
    return { ...module, compiled: made.get(module.url).cachedData };
  });
}

/**
 * Evaluates modules in their order. A module in an `await import(..)` is read when that is evaluated.
 * @param {OwnModule[]} list
 * @param {Record<string, Record<string, any>>} modules what some of them export, which are there already
 * @returns {Record<string, any>} what the last one exports; nothing, if there is none
 */
function evaluated(list, modules = {}) {
  const loaded = async (/** @type {string} */ url) => evaluated(ownModules(new URL(url)), modules);
  for (const { url, code, compiled } of list) {
    const options = { filename: url, cachedData: /** @type {Buffer | undefined} */ (compiled) };
    modules[url] ??= (made.get(url) ?? compileFunction(code, PARAMETERS, options))(modules, require, loaded);
  }
  return list.length === 0 ? {} : modules[list[list.length - 1].url];
}

module.exports = { compiledModules, evaluated, ownModules };
