// A run whose schedule a reader changes: this joins what is shown of the run with what can be changed.

import { callLines, changedData, marksOf } from "./changed.mjs";
import { by } from "./dom.mjs";
import { Run } from "./model.mjs";
import { SCHEDULE_KEYS, SchedulePane } from "./schedule-pane.mjs";
import { Viewer } from "./viewer.mjs";

/** @typedef {import("../schedule/editing.mjs").Editing} Editing */

export class Changeable {
  /**
   * @param {Run} run
   * @param {import("./schedule-pane.mjs").Words} words
   * @param {(isChanged: boolean) => void} onChange the schedule has changed
   */
  constructor(run, words, onChange) {
    this.recorded = run;
    this.words = words;
    this.onChange = onChange;
    /** @type {Editing | undefined} */
    this.editing = undefined;
    this.viewer = new Viewer(run, { onChosen: () => this.pane?.refresh(), onLetter: (key) => this.#letter(key) });
    /** @type {SchedulePane | undefined} */
    this.pane = undefined;
  }

  /**
   * Shows a run, whose schedule can't be changed yet.
   * @param {Run} run
   * @param {number} index of the step that is chosen
   */
  open(run, index) {
    this.recorded = run;
    this.freeze();
    this.viewer.open(run, index);
  }

  /** Shows the run as it is, with a schedule that can't be changed. */
  freeze() {
    this.editing = undefined;
    this.pane = undefined;
    by("schedule").hidden = true;
  }

  /**
   * Lets the schedule of the run be changed.
   * @param {Editing} editing of its script
   */
  edit(editing) {
    this.editing = editing;
    this.pane = new SchedulePane(editing, {
      chosen: () => this.#chosen(),
      onChange: (at) => this.#show(at),
      goTo: (agent, call) => this.#goTo(agent, call),
      words: this.words,
    });
    this.pane.refresh();
  }

  /** @param {string} key */
  #letter(key) {
    const id = SCHEDULE_KEYS.get(key);
    if (id === undefined || this.pane === undefined) return false;
    this.pane.act(id);
    return true;
  }

  /** The turn of the chosen step. An ordinary access belongs to the call before it. */
  #chosen() {
    const { run: { steps }, index } = this.viewer;
    const { agent } = steps[index];
    if (agent === undefined || this.editing === undefined) return undefined;
    let at = index;
    while (at >= 0 && (steps[at].agent !== agent || steps[at].entry === undefined)) at -= 1;
    if (at < 0) return undefined;
    const { starts } = this.editing.now;
    const entry = Number(steps[at].entry);
    let turn = starts.length - 1;
    while (turn > 0 && starts[turn] > entry) turn -= 1;
    return turn;
  }

  /**
   * Shows the run of the schedule as it is now.
   * @param {number | undefined} at the turn that is chosen
   */
  #show(at) {
    const { editing, recorded, pane } = this;
    if (editing === undefined) return;
    const { script, isChanged, now: { report, starts } } = editing;
    const run = isChanged ? new Run(changedData(recorded.data, script, report)) : recorded;
    const from = at === undefined ? Infinity : starts[at];
    const to = at === undefined ? Infinity : starts[at + 1] ?? Infinity;
    const index = run.steps.findIndex(({ entry }) => entry !== undefined && entry >= from && entry < to);
    this.viewer.open(run, index < 0 ? run.steps.length - 1 : index, marksOf(callLines(editing.differences), report));
    pane?.show(recorded, run);
    pane?.refresh();
    this.onChange(isChanged);
  }

  /** @param {number} agent @param {number} call */
  #goTo(agent, call) {
    const { steps } = this.viewer.run;
    const index = steps.map(({ fact }) => (fact?.agent === agent && fact.call === call)).lastIndexOf(true);
    this.viewer.choose(index < 0 ? steps.length - 1 : index);
  }
}
