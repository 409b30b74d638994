// Whether a file can be a module of agents at all. Its text is looked at before it is loaded, since loading a program
// runs it.

import { readFileSync } from "node:fs";
import { fileURLToPath } from "node:url";
import { Refused } from "../options/refused.mjs";

/** A module of an object has no agent: it exports which operations the tool's agents make. */
const HAS_OPERATIONS = /\bexport\b[^]*\boperations\b|\bexports\b/;

// Of an ES module, or of a CommonJS module.
const HAS_DEFAULT = /\bexport\b[^]*\bdefault\b|\bexports\b/;

/**
 * Refuses a file that exports nothing which could be an agent.
 * @param {string} url of the file
 * @param {string} name as it was given
 * @throws {Refused}
 */
export function needsAgents(url, name) {
  let text;
  try {
    text = readFileSync(fileURLToPath(url), "utf8");
  } catch {
    // If it can't be read, the code that loads it reports that.
    return;
  }
  if (HAS_DEFAULT.test(text) || HAS_OPERATIONS.test(text)) return;
  throw new Refused(`${name} is no module of agents, since it has no default export. If it is a program, give it `
    + "as `program` (--program). An agent is a function: export default function agent({ buffers, agent }) { .. }");
}
