// What the command line runs: a module of agents, or a whole program.

import { PROGRAM_ENDING } from "../keeping/run-store.mjs";
import { needFittingAll } from "../options/of-all.mjs";
import { needFitting } from "../options/of-programs.mjs";
import { Refused } from "../options/refused.mjs";
import { runKindOf } from "../options/run-kinds.mjs";
import { optionWord } from "../options/table.mjs";

/** @param {string} name @returns {string} an option as its user writes it */
const spelled = (name) => `--${optionWord(name)}`;

/**
 * The file that is run, and the kind of its runs.
 * @param {Record<string, any>} given what the options say
 * @param {string[]} positionals the words that are no options
 * @returns {{ module: string | undefined, kind: import("../options/run-kinds.mjs").RunKind }} no file if a kept run
 * says which program it is of
 * @throws {Refused}
 */
export function runFrom(given, positionals) {
  const { program } = given;
  if (program !== undefined && positionals.length > 0) {
    throw new Refused(`--program ${program} runs a program, so there can't be a module of agents, ${positionals[0]}, `
      + "too: arguments for the program follow --");
  }
  const isKept = positionals.length === 0 && given.replay?.endsWith(`.${PROGRAM_ENDING}`) === true;
  const asked = isKept ? { program: given.replay, ...given } : given;
  needFitting(asked, spelled);
  needFittingAll(given, spelled);
  const kind = runKindOf(asked);
  if (positionals.length === kind.words) return { module: positionals[0] ?? program, kind };
  const why = positionals.length === 0 ? "the agents' module is missing" : "there may be one module of agents only";
  throw new Refused(`${why}; --help shows more`);
}
