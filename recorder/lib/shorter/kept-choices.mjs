// The choices of a kept run, read back from the file beside its script, and how those of another run differ.

import { existsSync, readFileSync } from "node:fs";
import { UnlikeChoices, choiceText, choicesIn, isSameChoice } from "../../script/choices.mjs";
import { Refused } from "../options/refused.mjs";

/** @typedef {import("../../script/choices.mjs").AgentChoice} AgentChoice */

/**
 * @typedef {{ agents: AgentChoice[][], file: string | undefined }} KeptChoices of each agent; the file, if there is one
 */

const SCRIPT = /\.json$/;

// A page saves a changed schedule under such a name. The choices are those of the run that it shows.
const CHANGED = /((?:^|[\\/])seed-\d+)\.changed\.json$/;

/** @param {string} file of a script @returns {string[]} the files that may have its choices, in order */
const filesFor = (file) =>
  [file.replace(SCRIPT, ".choices.json"), file.replace(CHANGED, "$1.choices.json")].filter((each) => each !== file);

/**
 * @param {string} script the path of a script
 * @param {number} count how many agents it has
 * @returns {KeptChoices} none, if there is no file
 * @throws {Refused} if the file can't be read, or has something else
 */
export function keptChoices(script, count) {
  const file = filesFor(script).find((each) => existsSync(each));
  if (file === undefined) return { agents: Array.from({ length: count }, () => []), file };
  try {
    return { agents: choicesIn(readFileSync(file, "utf8"), count), file };
  } catch (error) {
    const { message } = /** @type {Error} */ (error);
    const what = error instanceof UnlikeChoices ? "doesn't fit it" : "can't be read";
    throw new Refused(`${file}, which has the choices for ${script}, ${what}: ${message}`);
  }
}

/** @param {KeptChoices} kept @param {string} script @returns {string} where the choices are, or should be */
const whereText = ({ file }, script) => file ?? script.replace(SCRIPT, ".choices.json");

/**
 * How a run has asked for another choice than it was given.
 * @param {KeptChoices} kept
 * @param {AgentChoice[][]} made by the run before that
 * @param {number} agent that has asked
 * @param {string} asked what it has asked for, with its line
 * @param {string} script
 * @returns {string}
 */
export function otherChoiceText(kept, made, agent, asked, script) {
  const at = made[agent]?.length ?? 0;
  const was = kept.agents[agent][at];
  const whose = `agent ${agent}'s choice ${at}`;
  const where = whereText(kept, script);
  if (kept.file === undefined) return `${whose} is ${asked}, and there is no ${where}: the kept run had no choices`;
  if (was === undefined) return `${whose} is ${asked}, and isn't in ${where}`;
  return `${whose} was ${choiceText(was)}, in ${where}, and is now ${asked}`;
}

/**
 * The first choice that a run hasn't made, or has made with another result.
 * @param {KeptChoices} kept
 * @param {AgentChoice[][]} made
 * @returns {string | undefined} undefined: both are the same
 */
export function missingChoiceText({ agents, file }, made) {
  for (const [agent, choices] of agents.entries()) {
    const at = choices.findIndex((choice, number) => !isSameChoice(choice, made[agent]?.[number]));
    if (at >= 0) return `agent ${agent}'s choice ${at} was ${choiceText(choices[at])}, in ${file}, and isn't made now`;
  }
  return undefined;
}
