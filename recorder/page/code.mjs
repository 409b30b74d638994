// The agents of a run, and the code at which they are, in a browser.

import { badge, by, made, reveal, spoken } from "./dom.mjs";

/** @typedef {import("./model.mjs").Run} Run */
/** @typedef {import("./model.mjs").State} State */

const MOST_BADGES = 2;

/**
 * File, line and column of a place.
 * @param {string} place
 */
function placeParts(place) {
  const [, file = place, line = "0", column = "0"] = /^(.*):(\d+):(\d+)$/.exec(place) ?? [];
  return { file, line: Number(line), column: Number(column) };
}

/** The agents, and the code of the file in which one of them is. */
export class Code {
  /** @param {Run} run */
  constructor(run) {
    this.run = run;
    this.pane = by("code");
    this.texts = new Map(run.data.files.map(({ file, text }) => [file, text]));
    this.places = run.data.places.map(placeParts);
    /** @type {string | undefined} the file that is shown */
    this.file = undefined;
    /** @type {HTMLElement[]} its lines */
    this.lines = [];
    this.cards = Array.from({ length: run.data.agents }, (_, agent) => this.#card(agent));
    by("agents").append(...this.cards.map(({ item }) => item));
    for (const { file } of run.data.files.length > 1 ? run.data.files : []) by("files").append(this.#fileButton(file));
  }

  /** @param {State} state @param {number | undefined} chosen the agent whose code is shown */
  show(state, chosen) {
    this.state = state;
    this.chosen = chosen ?? this.chosen ?? Math.max(0, state.agents.findIndex(({ place }) => place >= 0));
    state.agents.forEach((agent, number) => this.#fillCard(number, agent));
    const place = this.places[state.agents[this.chosen]?.place ?? -1];
    if (place !== undefined) this.#open(place.file);
    else if (this.file === undefined) this.#open(this.run.data.files[0]?.file);
    this.#mark();
    reveal(by("agents"), this.cards[this.chosen].item);
  }

  /** @param {number} agent */
  #card(agent) {
    const button = /** @type {HTMLButtonElement} */ (made("button", "agent"));
    button.type = "button";
    const parts = { does: made("span", "does"), where: made("span", "where"), line: made("code", "line") };
    button.append(spoken("agent "), badge(agent), parts.does, parts.where, " ", parts.line);
    button.addEventListener("click", () => {
      if (this.state !== undefined) this.show(this.state, agent);
    });
    return { item: made("li", "", button), button, ...parts };
  }

  /** @param {number} number @param {import("./model.mjs").AgentState} agent */
  #fillCard(number, { place, does, is }) {
    const { button, does: doesPart, where, line } = this.cards[number];
    const at = this.places[place];
    button.className = `agent ${is}`;
    button.setAttribute("aria-pressed", `${number === this.chosen}`);
    doesPart.textContent = does;
    const isOneFile = this.run.data.files.length === 1;
    where.textContent = at === undefined ? "" : `${isOneFile ? "line " : `${at.file}:`}${at.line}`;
    line.textContent = at === undefined ? "" : this.texts.get(at.file)?.split("\n")[at.line - 1]?.trim() ?? "";
  }

  /** @param {string} file */
  #fileButton(file) {
    const button = /** @type {HTMLButtonElement} */ (made("button", "file", file));
    button.type = "button";
    button.addEventListener("click", () => {
      this.#open(file);
      this.#mark();
    });
    return button;
  }

  /** @param {string | undefined} file to be shown */
  #open(file) {
    if (file === this.file && file !== undefined) return;
    this.file = file;
    this.pane.setAttribute("aria-label", `Code of ${file ?? "the agents"}`);
    const text = file === undefined ? null : this.texts.get(file);
    this.lines = (text ?? "").replace(/\n$/, "").split("\n").map((line, at) => codeLine(line, at + 1));
    if (typeof text === "string") this.pane.replaceChildren(made("h3", "", `${file}`), ...this.lines);
    else this.pane.replaceChildren(made("p", "missing", this.#whyMissing(file)));
    this.pane.scrollTop = 0;
  }

  /** @param {string | undefined} file */
  #whyMissing(file) {
    return file === undefined
      ? "The agents' lines of code aren't known: no second run by this seed has done the same."
      : `The code of ${file} couldn't be read when this run was kept.`;
  }

  /** Marks the lines at which the agents are. */
  #mark() {
    for (const line of this.pane.querySelectorAll(".here")) unmark(/** @type {HTMLElement} */ (line));
    for (const button of by("files").children) {
      button.setAttribute("aria-pressed", `${button.textContent === this.file}`);
    }
    /** @type {Map<HTMLElement, number[]>} */
    const here = new Map();
    this.state?.agents.forEach(({ place }, agent) => {
      const at = this.places[place];
      const line = at !== undefined && at.file === this.file ? this.lines[at.line - 1] : undefined;
      if (line === undefined) return;
      here.set(line, agent === this.chosen ? [agent, ...here.get(line) ?? []] : [...here.get(line) ?? [], agent]);
      if (agent === this.chosen) this.#markChosen(line, at.column);
    });
    for (const [line, agents] of here) markAgents(line, agents);
  }

  /**
   * Marks the line at which the agent is whose code is shown.
   * @param {HTMLElement} line
   * @param {number} column
   */
  #markChosen(line, column) {
    line.classList.add("chosen");
    line.setAttribute("aria-current", "step");
    markToken(/** @type {HTMLElement} */ (line.lastElementChild), column);
    reveal(this.pane, line);
  }
}

/** @param {string} text @param {number} number */
function codeLine(text, number) {
  return made("div", "code-line", made("span", "who"), made("span", "number", `${number}`), made("code", "", text));
}

/**
 * Marks a line at which agents are.
 * @param {HTMLElement} line
 * @param {number[]} agents
 */
function markAgents(line, agents) {
  const shown = agents.slice(0, agents.length > MOST_BADGES ? 1 : MOST_BADGES);
  const more = agents.length - shown.length;
  line.classList.add("here");
  const who = /** @type {HTMLElement} */ (line.firstElementChild);
  who.append(...shown.map((agent) => badge(agent)), more > 0 ? `+${more}` : "");
  who.append(spoken(` agents ${agents.join(", ")} are here: `));
}

/** @param {HTMLElement} line */
function unmark(line) {
  line.classList.remove("here", "chosen");
  line.removeAttribute("aria-current");
  line.firstElementChild?.replaceChildren();
  const code = /** @type {HTMLElement} */ (line.lastElementChild);
  code.replaceChildren(code.textContent ?? "");
}

/**
 * Marks the word that begins at a column.
 * @param {HTMLElement} code
 * @param {number} column from 1
 */
function markToken(code, column) {
  const text = code.textContent ?? "";
  const from = Math.min(column - 1, text.length);
  const word = /^[\w$]+|^./.exec(text.slice(from))?.[0] ?? "";
  code.replaceChildren(text.slice(0, from), made("mark", "", word), text.slice(from + word.length));
}
