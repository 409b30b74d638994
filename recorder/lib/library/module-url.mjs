// Where the agents' module is: by a URL, or by a path, which may be relative to the file that calls the library.

import { statSync } from "node:fs";
import { isAbsolute, resolve } from "node:path";
import { fileURLToPath, pathToFileURL } from "node:url";
import { Refused } from "../options/refused.mjs";
import { needsAgents } from "./agents-file.mjs";
import { needsJavaScript } from "./program-file.mjs";

/**
 * The URL of a module.
 * @param {string | URL} module a URL, or the path of a file
 * @param {string} [folder] from which a relative path is taken; the working directory if it isn't given
 * @returns {string}
 */
export function moduleUrl(module, folder = process.cwd()) {
  if (module instanceof URL) return module.href;
  return module.startsWith("file:") ? module : pathToFileURL(resolve(folder, module)).href;
}

/** @param {string} url @returns {boolean} */
export function isFile(url) {
  try {
    return statSync(fileURLToPath(url)).isFile();
  } catch {
    return false;
  }
}

/**
 * A URL's path, if it has one.
 * @param {string} url
 */
function pathOf(url) {
  try {
    return fileURLToPath(url);
  } catch {
    return url;
  }
}

/** What refuses a file that can't be run, by the option that names it. */
export const NEEDS = Object.freeze({ module: needsAgents, program: needsJavaScript });

/**
 * The URL of a module that somebody's code names.
 * @param {"module" | "program"} name of the option that names it
 * @param {string | URL} module a URL; an absolute path; or a path from the folder of that code
 * @param {() => string | undefined} folderOf that folder, if it is known
 * @returns {string}
 * @throws {Refused} if there is no such file, or it isn't known which is meant
 */
export function moduleUrlOf(name, module, folderOf) {
  const isRelative = typeof module === "string" && !module.startsWith("file:") && !isAbsolute(module);
  const folder = isRelative ? folderOf() : undefined;
  if (isRelative && folder === undefined) {
    const instead = `give a URL, as new URL("${module}", import.meta.url)`;
    throw new Refused(`\`${name}\` is "${module}", and it isn't known which file asks for that: ${instead}`);
  }
  const url = moduleUrl(module, folder);
  if (!url.startsWith("file:")) return url;
  if (isFile(url)) {
    NEEDS[name](url, pathOf(url));
    return url;
  }
  const from = isRelative ? `: \`${name}\` is "${module}", from the folder of the file that asks for it` : "";
  throw new Refused(`there is no file ${pathOf(url)}${from}`);
}
