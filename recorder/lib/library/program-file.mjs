// Whether this node can run a file as a program at all.

import process from "node:process";
import { Refused } from "../options/refused.mjs";
import { preloads } from "../processes/preloads.mjs";
import { COMPILE, TYPESCRIPT } from "../run/words/load-problem.mjs";

/**
 * Refuses a program in TypeScript, if this node doesn't leave out its types. Code that was loaded first may do that.
 * @param {string} url of the file
 * @param {string} name as it was given
 * @throws {Refused}
 */
export function needsJavaScript(url, name) {
  const { typescript } = /** @type {any} */ (process.features);
  if (TYPESCRIPT.test(url) && !typescript && !preloads()) throw new Refused(`${name} can't be run: ${COMPILE}`);
}
