// The part of a page in which a reader changes the schedule: what can be done to the chosen step, and what is different
// then.

import { dropped, earlier, later, timeEnded } from "../schedule/edits.mjs";
import { callLines, differenceText, elementLines } from "./changed.mjs";
import { badge, by, made, spoken } from "./dom.mjs";

/** @typedef {import("../schedule/edits.mjs").Edit} Edit */
/** @typedef {import("../schedule/editing.mjs").Editing} Editing */
/** @typedef {import("./changed.mjs").Line} Line */
/** @typedef {import("./model.mjs").Run} Run */

/** @type {{ id: string, text: string, key: string, edit: Edit, done: string }[]} */
const EDITS = [
  { id: "earlier", text: "Move earlier", key: "e", edit: earlier, done: "Moved earlier." },
  { id: "later", text: "Move later", key: "l", edit: later, done: "Moved later." },
  { id: "end-time", text: "End the wait's time", key: "t", edit: timeEnded, done: "The time of the wait ends here." },
  { id: "drop", text: "Drop", key: "d", edit: dropped, done: "Dropped: the agent makes this call at its next step." },
];

const LINES_SHOWN = 200;

/**
 * @typedef {object} SchedulePaneHost what the page does for this part
 * @property {() => number | undefined} chosen the turn of the step that is chosen
 * @property {(at: number | undefined) => void} onChange shows the run as it is now, at a turn
 * @property {(agent: number, call: number) => void} goTo chooses the step of a call
 * @property {Words} words
 */

/**
 * @typedef {object} Words of the page about the schedule
 * @property {string} was what the schedule was before all changes: `recorded`, `written`
 * @property {string} fileName under which the changed script is saved
 * @property {() => string[]} notes about the changed schedule; a command comes behind `$ `
 */

export class SchedulePane {
  /** @param {Editing} editing @param {SchedulePaneHost} host */
  constructor(editing, host) {
    this.editing = editing;
    this.host = host;
    this.words = host.words;
    this.status = made("p", "status");
    this.status.setAttribute("role", "status");
    this.result = made("div", "result");
    const buttons = made("div", "buttons");
    buttons.setAttribute("role", "toolbar");
    buttons.setAttribute("aria-label", "Change the schedule");
    /** @type {Map<string, HTMLElement>} */
    this.buttons = new Map();
    for (const { id, text } of EDITS) buttons.append(this.#button(id, text));
    buttons.append(this.#button("undo", "Undo"), this.#button("reset", `As ${host.words.was}`));
    buttons.append(this.#button("save", "Save script"));
    const asked = made("div", "asked", made("h2", "", "Change the schedule"), buttons, this.status);
    by("schedule").replaceChildren(asked, this.result);
    by("schedule").hidden = false;
  }

  /** @param {string} id @param {string} text */
  #button(id, text) {
    const button = /** @type {HTMLButtonElement} */ (made("button", "", text));
    button.type = "button";
    button.id = id;
    button.addEventListener("click", () => this.act(id));
    this.buttons.set(id, button);
    return button;
  }

  /**
   * Does what a button or a key asks for. If the simulator fails, the schedule stays as it is.
   * @param {string} id of the button
   */
  act(id) {
    try {
      this.#act(id);
    } catch (problem) {
      this.status.textContent = `Not done: ${/** @type {Error} */ (problem).message}.`;
    }
  }

  /** @param {string} id */
  #act(id) {
    const { editing, host } = this;
    const edit = EDITS.find((each) => each.id === id);
    if (edit !== undefined) this.#change(edit);
    else if (id === "save") this.#save();
    else if (editing.before.length === 0) this.status.textContent = "Nothing is changed.";
    else {
      const at = id === "undo" ? editing.undo() : host.chosen();
      if (id === "reset") editing.reset();
      const isBack = !editing.isChanged;
      this.status.textContent = isBack ? `The schedule is as ${this.words.was}.` : "The last change is taken back.";
      host.onChange(at);
    }
  }

  /** @param {(typeof EDITS)[number]} edit */
  #change({ edit, done }) {
    const at = this.host.chosen();
    const changed = at === undefined ? { why: "no step of the schedule is chosen" } : this.editing.change(edit, at);
    this.status.textContent = "why" in changed ? `Not changed: ${changed.why}.` : done;
    if ("at" in changed) this.host.onChange(changed.at);
  }

  #save() {
    const link = /** @type {HTMLAnchorElement} */ (made("a", ""));
    link.href = URL.createObjectURL(new Blob([this.editing.text], { type: "application/json" }));
    link.download = this.words.fileName;
    link.click();
    URL.revokeObjectURL(link.href);
    this.status.textContent = `Saved as ${this.words.fileName}.`;
  }

  /** Marks what can be done to the chosen step. */
  refresh() {
    const { editing, host } = this;
    const at = host.chosen();
    for (const { id, edit } of EDITS) {
      const tried = at === undefined ? { why: "no step of the schedule is chosen" } : edit(editing.now, at);
      this.#enable(id, "why" in tried ? tried.why : undefined);
    }
    const why = editing.before.length === 0 ? "nothing is changed" : undefined;
    this.#enable("undo", why);
    this.#enable("reset", why);
  }

  /** @param {string} id @param {string | undefined} why not */
  #enable(id, why) {
    const button = /** @type {HTMLElement} */ (this.buttons.get(id));
    button.setAttribute("aria-disabled", `${why !== undefined}`);
    button.title = why === undefined ? "" : `Not here: ${why}`;
  }

  /**
   * Shows what is different.
   * @param {Run} before all changes
   * @param {Run} now
   */
  show(before, now) {
    const { editing, words } = this;
    this.result.replaceChildren();
    if (!editing.isChanged) return;
    const { differences } = editing;
    const lines = [...callLines(differences), ...elementLines(before, now)];
    this.result.append(made("p", "summary", differenceText(differences)));
    if (lines.length > 0) this.result.append(this.#table(lines.slice(0, LINES_SHOWN)));
    if (lines.length > LINES_SHOWN) this.result.append(made("p", "", `and ${lines.length - LINES_SHOWN} more`));
    for (const note of words.notes()) {
      const isCommand = note.startsWith("$ ");
      this.result.append(isCommand ? made("pre", "command", note.slice(2)) : made("p", "note", note));
    }
  }

  /** @param {Line[]} lines */
  #table(lines) {
    const { was } = this.words;
    const head = made("tr", "", ...["What", `As ${was}`, "Now"].map((text) => {
      const cell = made("th", "", text);
      cell.setAttribute("scope", "col");
      return cell;
    }));
    const rows = lines.map((line) =>
      made("tr", "", this.#what(line), made("td", "", line.before), made("td", "now", line.after)));
    const table = made("table", "differences", made("thead", "", head), made("tbody", "", ...rows));
    table.setAttribute("aria-label", "What is different");
    return table;
  }

  /** @param {Line} line */
  #what({ agent, call, what }) {
    if (agent === undefined || call === undefined) return made("td", "", what);
    const parts = [spoken("agent "), badge(agent), ` ${what}`];
    const button = /** @type {HTMLButtonElement} */ (made("button", "call", ...parts));
    button.type = "button";
    button.addEventListener("click", () => this.host.goTo(agent, call));
    return made("td", "", button);
  }
}

/** The keys of what can be done. */
export const SCHEDULE_KEYS = new Map([...EDITS.map(({ id, key }) => /** @type {const} */ ([key, id])), ["u", "undo"]]);
