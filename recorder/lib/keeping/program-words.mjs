// A program's run in words: its threads, its memory if that is shown in windows, and then each step with its line of
// code. A message is sent and received.

import { Views } from "../../page/elements.mjs";
import { endingText } from "../../page/endings.mjs";
import { Stepper, placeText } from "../../page/steps.mjs";
import { runDataOf } from "./kept-page.mjs";

/** In place of the number of a move, if a step isn't in the script. */
const NO_MOVE = "-";

/**
 * @param {string} facts what `sabsim replay --format json` prints about the run
 * @param {import("../run/outcome.mjs").Outcome} outcome that has a script
 * @param {string} module the URL of the program's main module
 * @returns {string} lines
 */
export function wordsText(facts, outcome, module) {
  const data = runDataOf(outcome, facts, module);
  const { seed, ending, detail, threads = [], windows = [], places } = data;
  const names = threads.map((name, agent) => `agent ${agent}: ${name === "" ? data.module : name}`);
  const steps = new Stepper(data, new Views(data)).all();
  const lines = steps.filter(({ agent }) => agent !== undefined).map((step) =>
    `${step.entry ?? NO_MOVE} ${step.agent} ${step.sentence}${placeText(step, places)}`);
  const memory = windows.map(({ where, what }) => `${where}: ${what}`);
  const head = `seed ${seed} of ${data.module}: ${endingText(ending, detail)}`;
  return [head, ...names, ...memory, "", ...lines, "", ...detail.split("\n"), ""].join("\n");
}
