// What a program's thread begins with: the program's main module, or what a Worker was given.

import process from "node:process";
import { fileURLToPath, pathToFileURL } from "node:url";
import { isThere } from "./fresh-modules.mjs";
import { Modules } from "../node/internals.mjs";
import { nodeError } from "../node/node-error.mjs";

/** @type {(path: string, folders: null, isMain: boolean) => string | false} */
const findPath = Modules._findPath;

const EVALUATED = "[worker eval]";

/**
 * What a thread began with last, and the file that it was: it begins with the same in most runs.
 * @type {{ url: string, path: string, found?: { file: string, url: string } }}
 */
let last = { url: "", path: "" };

/** @param {string} url of a file @returns {typeof last} */
function knownOf(url) {
  if (last.url !== url) last = { url, path: fileURLToPath(url) };
  return last;
}

/**
 * Node finds the module that a thread begins with as `require` does: its name may be without the ending. It goes by the
 * file itself if a link leads to it. A file that was found is taken as long as it is there: to find it takes long.
 * @param {string} url
 * @returns {string} the URL of the file
 */
function entryOf(url) {
  if (!url.startsWith("file:")) return url;
  const known = knownOf(url);
  if (known.found !== undefined && isThere(known.found.file)) return known.found.url;
  const { path } = known;
  const file = findPath(path, null, true);
  if (file === false) throw nodeError("MODULE_NOT_FOUND", `Cannot find module '${path}'`, { requireStack: [] });
  const [rest = ""] = /[?#].*$/.exec(url) ?? [];
  known.found = { file, url: `${pathToFileURL(file).href}${rest}` };
  return known.found.url;
}

/**
 * Evaluates the thread's module.
 * @param {{ url: string, isCode: boolean }} start
 * @param {import("./program-modules.mjs").ProgramModules} graph
 * @returns {Promise<unknown>}
 */
export async function evaluatedProgram({ url, isCode }, graph) {
  return isCode ? graph.evaluate(url, EVALUATED) : graph.enter(entryOf(url));
}

/**
 * The words of the thread's command line.
 * @param {{ url: string, isCode: boolean, argv: string[] }} start
 * @returns {string[]}
 */
export function argvOf({ url, isCode, argv }) {
  const file = !isCode && url.startsWith("file:") ? knownOf(url).path : isCode ? EVALUATED : url;
  return [/** @type {any} */ (process).execPath, file, ...argv];
}
