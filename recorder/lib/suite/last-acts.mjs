// The last acts of a run that failed: each with its line of code, and ordinary accesses among them. Two accesses that
// nothing orders are marked.

import { Views } from "../../page/elements.mjs";
import { Stepper, placeText } from "../../page/steps.mjs";
import { runDataOf } from "../keeping/kept-page.mjs";

/** @typedef {import("../library/record-runs.mjs").RecordedOutcome} RecordedOutcome */
/** @typedef {import("../simulator/chosen.mjs").ChosenSimulator} ChosenSimulator */

/** @typedef {{ at: number, text: string, isMarked: boolean }} Act with its number among the steps of the run */

const COLUMNS = "the move, the agent, how many of its calls had returned";
const TITLE = `Its last acts, as sabsim explains them (${COLUMNS}), and their lines:`;
const TITLE_OF_RACE = `${TITLE.slice(0, -1)}; > marks two accesses that nothing orders:`;

// How many acts are shown, and how many characters of a line.
const MOST_ACTS = 16;
const MOST_CHARACTERS = 160;

// In place of the number of a move, if an ordinary access isn't in the script.
const NO_MOVE = "-";

/**
 * @param {RecordedOutcome} outcome of the run
 * @param {{ simulator: ChosenSimulator, module: string }} about with the URL of the agents' module
 * @returns {string[]} a title, the acts, and then the bytes and how far each agent came; none if there is no script, or
 * the simulator can't replay it
 */
export function lastActs(outcome, { simulator, module }) {
  const explained = replayed(simulator, outcome, "explained");
  const facts = replayed(simulator, outcome, "json");
  if (explained === undefined || facts === undefined) return [];
  const lines = explained.trimEnd().split("\n");
  const end = lines.findIndex((line) => line.startsWith("block "));
  const acts = actsOf(lines.slice(0, end), runDataOf(outcome, facts, module));
  const isRace = acts.some(({ isMarked }) => isMarked);
  const [mark, none] = isRace ? ["> ", "  "] : ["", ""];
  const shown = shownOf(acts).map(({ text, isMarked }) => `${isMarked ? mark : none}${text}`);
  const rest = lines.slice(end).map((line) => `${none}${shortened(line)}`);
  return [isRace ? TITLE_OF_RACE : TITLE, ...[...shown, ...rest].map((line) => `  ${line}`)];
}

/**
 * @param {ChosenSimulator} simulator
 * @param {RecordedOutcome} outcome
 * @param {"explained" | "json"} format
 * @returns {string | undefined} undefined if there is no script, or it can't be replayed
 */
function replayed(simulator, { script }, format) {
  if (script === undefined) return undefined;
  try {
    const acts = format === "explained";
    const { status, output } = simulator.run({ job: "replay", format, acts }, script);
    return status === 0 ? output : undefined;
  } catch {
    return undefined;
  }
}

/**
 * @param {string[]} lines of the explained report, each beginning with the number of its move
 * @param {import("../../page/run-data.mjs").RunData} data
 * @returns {Act[]}
 */
function actsOf(lines, data) {
  const explained = new Map(lines.map((line) => [Number.parseInt(line, 10), line]));
  // Where the words of the report's lines begin.
  const width = Math.max(0, ...lines.map((line) => line.search(/\w+\(/)));
  const racing = new Set(data.races[0] ?? []);
  /** @type {number[]} how many calls of each agent had returned */
  const returned = Array(data.agents).fill(0);
  const steps = new Stepper(data, new Views(data)).all();
  return steps.filter(({ agent }) => agent !== undefined).map((step, at) => {
    const { agent = 0, entry, event, sentence, what, accesses: [access], isReworded } = step;
    const line = explained.get(entry ?? -1) ?? `${NO_MOVE} ${agent} ${returned[agent]}`;
    const [move, , count] = line.split(" ");
    if (entry !== undefined) returned[agent] = Number(count) + (what === "wait" ? 0 : 1);
    const isOrdinary = what === "ordinary" || what === "store";
    const does = `${move} ${agent} ${count} ${access?.writes ? "write" : "read"} `.padEnd(width);
    const isOther = isReworded || what === "task";
    const words = isOther ? `${line.slice(0, width).padEnd(what === "task" ? width : 0)}${sentence}` : line;
    const text = `${shortened(isOrdinary ? `${does}${sentence}` : words)}${placeText(step, data.places)}`;
    return { at, text, isMarked: event !== undefined && racing.has(event) };
  });
}

/**
 * The last acts, and those that are marked, with two dots for those that are left out.
 * @param {Act[]} acts
 * @returns {Omit<Act, "at">[]}
 */
function shownOf(acts) {
  const from = acts.length - MOST_ACTS;
  const shown = acts.filter(({ at, isMarked }) => at >= from || isMarked);
  return shown.flatMap((act, position) => {
    const before = position === 0 ? -1 : shown[position - 1].at;
    const isNext = act.at === before + 1 || (position === 0 && !act.isMarked);
    return isNext ? [act] : [{ text: "..", isMarked: false }, act];
  });
}

/** @param {string} line */
const shortened = (line) => (line.length > MOST_CHARACTERS ? `${line.slice(0, MOST_CHARACTERS)}…` : line);
