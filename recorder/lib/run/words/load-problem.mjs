// What is said if a module of agents can't be loaded.

import { readFileSync } from "node:fs";
import { fileURLToPath } from "node:url";

/** The URL of a file with types. */
export const TYPESCRIPT = /\.[cm]?tsx?$/;
const NOT_LOADED_AS_IT_IS = /ERR_UNKNOWN_FILE_EXTENSION|ERR_NO_TYPESCRIPT|ERR_UNSUPPORTED_TYPESCRIPT_SYNTAX/;
/** What helps. */
export const COMPILE = "it is TypeScript, which this node doesn't load: compile it first, and give the .js file. "
  + "Source maps are followed, so lines are those of the .ts file";

// What only code has that starts threads, or that runs in one.
const OF_PROGRAMS = /\bnew Worker\(|\b(?:workerData|parentPort|isMainThread)\b/;
const PROGRAM = "It looks like a program, or like the file of its Worker. A module of agents starts no threads: it "
  + "only exports what one thread does, as `export default function agent({ buffers, agent }) { .. }`";

/** @param {string} url @returns {boolean} */
function looksLikeProgram(url) {
  try {
    return OF_PROGRAMS.test(readFileSync(fileURLToPath(url), "utf8"));
  } catch {
    return false;
  }
}

/**
 * @param {string} module the URL of the agents' module
 * @param {string} problem what its worker reports, in words
 * @returns {string} a sentence, and then what helps
 */
export function loadProblem(module, problem) {
  const cant = `${module} can't be loaded`;
  if (TYPESCRIPT.test(module) && NOT_LOADED_AS_IT_IS.test(problem)) return `${cant}: ${COMPILE}`;
  return looksLikeProgram(module) ? `${cant}: ${problem}\n${PROGRAM}` : `${cant}: ${problem}`;
}
