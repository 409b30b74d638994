// The explained report of a run whose agents have chosen: each choice has a line at its place. The report itself is of
// the script, which has no choices.

import { Views } from "../../page/elements.mjs";
import { Stepper, placeText } from "../../page/steps.mjs";
import { runDataOf } from "./kept-page.mjs";

/** @typedef {import("../../page/steps.mjs").Step} Step */

/**
 * @param {Step} step of the script
 * @returns {number} the number of its first move: one that begins comes before it acts
 */
const firstMove = ({ what, entry = 0 }) => (what === "leave" || what === "stuck" ? entry : entry - 1);

/**
 * @param {string} explained report
 * @param {string} facts what `sabsim replay --format json` prints about the run
 * @param {import("../run/outcome.mjs").Outcome} outcome that has a script and its trace
 * @param {string} module the URL of the agents' module
 * @returns {string}
 */
export function withChoices(explained, facts, outcome, module) {
  const data = runDataOf(outcome, facts, module);
  const steps = new Stepper(data, new Views(data)).all();
  /** @type {Map<number, string[]>} by the move before which they come; Infinity: no move comes behind them */
  const lines = new Map();
  steps.forEach((step, at) => {
    if (step.what !== "task") return;
    const next = steps.find(({ entry }, other) => other > at && entry !== undefined);
    const before = next === undefined ? Infinity : firstMove(next);
    const line = `agent ${step.agent} ${step.sentence}${placeText(step, data.places)}`;
    lines.set(before, [...lines.get(before) ?? [], line]);
  });
  return withLines(explained, lines);
}

/** @param {string} explained @param {Map<number, string[]>} lines as above @returns {string} */
function withLines(explained, lines) {
  const all = explained.split("\n");
  const end = all.findIndex((line) => !/^\d/.test(line));
  const moves = all.slice(0, end).flatMap((line) => [...lines.get(Number.parseInt(line, 10)) ?? [], line]);
  return [...moves, ...lines.get(Infinity) ?? [], ...all.slice(end)].join("\n");
}
