// The page of a run. The run's data is in the page itself, and so is the simulator, if the page has one.

import { Editing } from "../schedule/editing.mjs";
import { whyNotOnCode } from "../schedule/on-code.mjs";
import { showAbout } from "./about.mjs";
import { Changeable } from "./changeable.mjs";
import { by, made } from "./dom.mjs";
import { endingText } from "./endings.mjs";
import { Run } from "./model.mjs";
import { simulateBy } from "./simulate.mjs";

/** @typedef {import("./run-data.mjs").RunData} RunData */

const SHORT_DETAIL_LINES = 2;

/** @param {RunData} data */
function showHead({ seed, module, ending, detail, isWhole }) {
  by("failing").hidden = false;
  by("ending").textContent = endingText(ending, detail);
  by("ending").className = `ending ${ending}`;
  by("what").textContent = `seed ${seed} of ${module}`;
  if (!isWhole) by("timeline-title").textContent = "Timeline, without ordinary accesses: there are too many";
  const lines = detail === "" ? [] : detail.split("\n");
  by("detail").replaceChildren(...lines.slice(0, SHORT_DETAIL_LINES).map((line) => made("p", "", line)));
  if (lines.length <= SHORT_DETAIL_LINES) return;
  const rest = lines.slice(SHORT_DETAIL_LINES).join("\n");
  by("detail").append(made("details", "", made("summary", "", "more"), made("pre", "", rest)));
}

/** @param {RunData} data of the recorded run */
function showChangedHead({ seed, module }) {
  by("failing").hidden = true;
  by("ending").textContent = "another schedule";
  by("ending").className = "ending changed";
  by("what").textContent = `for the calls of seed ${seed} of ${module}`;
  by("detail").replaceChildren();
}

/** @param {RunData["command"]} command @returns {string | undefined} why it makes no changed schedule */
function whyNone(command) {
  if (command === undefined) return "no command makes the recorded run";
  return command.isOfRow ? "the script doesn't have the turns of the program's event loops" : undefined;
}

/**
 * What is said about a changed schedule.
 * @param {RunData} data
 * @param {Editing | undefined} editing
 * @param {string} name of the script's file
 * @returns {string[]}
 */
function notesOn({ command }, editing, name) {
  const note = "These are the recorded calls in another order, not the program: the code might take another path.";
  const why = whyNone(command) ?? (editing && whyNotOnCode(editing));
  if (command === undefined || why !== undefined) {
    return [note, `No command can run the code by this schedule: ${why}.`];
  }
  const how = "Save the script. This command runs the code by this schedule, "
    + "or shows where the code does something else:";
  return [note, how, `$ ${command.options} --replay ${name}${command.args}`];
}

/**
 * Opens the page.
 * @param {import("./simulate.mjs").SimulatorClass} [Simulator] the loader's; undefined: the page has no simulator
 */
export async function openPage(Simulator) {
  /** @type {RunData} */
  const data = JSON.parse(by("run").textContent ?? "");
  const run = new Run(data);
  showHead(data);
  showAbout(data);
  const fileName = `seed-${data.seed}.changed.json`;
  /** @type {Changeable} */
  const shown = new Changeable(run, {
    was: "recorded", fileName, notes: () => notesOn(data, shown.editing, fileName),
  }, (isChanged) => (isChanged ? showChangedHead(data) : showHead(data)));
  shown.open(run, run.failing[run.failing.length - 1]);
  shown.viewer.timeline.pane.focus({ preventScroll: true });
  if (Simulator === undefined || data.script === undefined) return;
  try {
    shown.edit(new Editing(data.script, await simulateBy(Simulator)));
    by("schedule-keys").hidden = false;
  } catch (problem) {
    const { message } = /** @type {Error} */ (problem);
    by("schedule").hidden = false;
    by("schedule").append(made("p", "", `The schedule can't be changed here: ${message}`));
  }
  shown.viewer.reveal();
}
