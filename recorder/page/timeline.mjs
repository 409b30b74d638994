// The timeline of a run in a browser: a row for each step, with a lane for each agent.

import { badge, by, made, spoken } from "./dom.mjs";
import { endingText } from "./endings.mjs";

/** @typedef {import("./model.mjs").Run} Run */
/** @typedef {import("./steps.mjs").Step} Step */

// A row's height in pixels, as page.css has it; and how many rows there are at least, and are made, beyond those seen.
const ROW_HEIGHT = 24;
const ROWS_NEAR = 20;
const ROWS_AROUND = 120;

/** Steps that are no calls of Atomics. */
const PLAIN = new Set(["ordinary", "store", "task"]);

/**
 * The rows of steps, with a lane for each agent. If there are many steps, only the rows near those that are seen are
 * made.
 */
export class Timeline {
  /** @param {Run} run @param {(index: number) => void} onChosen */
  constructor(run, onChosen) {
    this.run = run;
    this.pane = by("timeline");
    this.sheet = made("div", "sheet");
    /** @type {Map<number, string>} */
    this.marks = new Map();
    /** @type {Set<number>[]} */
    this.waiting = [];
    /** @type {HTMLElement[]} the rows that are there, by their steps */
    this.rows = [];
    this.from = 0;
    this.to = 0;
    this.chosen = 0;
    this.sheet.setAttribute("role", "presentation");
    this.pane.append(this.sheet);
    this.pane.addEventListener("scroll", () => this.#draw());
    addEventListener("resize", () => this.#draw());
    this.pane.addEventListener("click", (event) => {
      const row = event.target instanceof Element ? event.target.closest("[role=option]") : null;
      if (row !== null) onChosen(this.rows.indexOf(/** @type {HTMLElement} */ (row)));
    });
  }

  /**
   * Shows a run.
   * @param {Run} run
   * @param {Map<number, string>} marks of steps, by their entries
   */
  open(run, marks) {
    this.run = run;
    this.marks = marks;
    this.sheet.style.height = `${run.steps.length * ROW_HEIGHT}px`;
    for (const part of [this.pane, by("lane-names")]) part.style.setProperty("--agents", `${run.data.agents}`);
    by("lane-names").replaceChildren(made("span", "number", ""), this.#laneNames(), made("span", "", ""));
    this.waiting = waitingAt(run.steps);
    this.rows = [];
    this.from = 0;
    this.to = 0;
    this.chosen = 0;
    this.sheet.replaceChildren();
  }

  /** @param {number} index */
  choose(index) {
    this.rows[this.chosen]?.setAttribute("aria-selected", "false");
    this.chosen = index;
    const { pane } = this;
    const top = index * ROW_HEIGHT;
    const room = Math.min(pane.clientHeight / 3, 3 * ROW_HEIGHT);
    const least = top + ROW_HEIGHT + room - pane.clientHeight;
    pane.scrollTop = Math.min(Math.max(pane.scrollTop, least), Math.max(0, top - room));
    this.#draw();
    this.rows[index].setAttribute("aria-selected", "true");
    pane.setAttribute("aria-activedescendant", this.rows[index].id);
  }

  /** Makes the rows that are seen, and some around them. */
  #draw() {
    const { steps } = this.run;
    const seen = Math.floor(this.pane.scrollTop / ROW_HEIGHT);
    const end = Math.ceil((this.pane.scrollTop + this.pane.clientHeight) / ROW_HEIGHT);
    const isThere = this.from <= Math.max(0, seen - ROWS_NEAR) && this.to >= Math.min(steps.length, end + ROWS_NEAR);
    if (isThere) return;
    this.from = Math.max(0, seen - ROWS_AROUND);
    this.to = Math.min(steps.length, end + ROWS_AROUND);
    const before = this.rows;
    this.rows = [];
    for (let at = this.from; at < this.to; at += 1) this.rows[at] = before[at] ?? this.#row(steps[at], at);
    this.sheet.replaceChildren(...this.rows.slice(this.from));
  }

  #laneNames() {
    const lanes = made("span", "lanes");
    const { agents, threads = [] } = this.run.data;
    for (let agent = 0; agent < agents; agent += 1) {
      const lane = made("span", "lane", `${agent}`);
      if (threads[agent]) lane.title = `agent ${agent}: ${threads[agent]}`;
      lanes.append(lane);
    }
    return lanes;
  }

  /** @param {Step} step @param {number} index */
  #row(step, index) {
    const { agent, entry, text, answer, changes, what, isSwitch } = step;
    const row = made("div", `row ${what}${isSwitch ? " switch" : ""}`);
    row.id = `step-${index}`;
    row.setAttribute("role", "option");
    row.setAttribute("aria-selected", `${index === this.chosen}`);
    row.setAttribute("aria-setsize", `${this.run.steps.length}`);
    row.setAttribute("aria-posinset", `${index + 1}`);
    row.style.top = `${index * ROW_HEIGHT}px`;
    const number = made("span", "number", entry === undefined ? "" : `${entry}`);
    const does = made("span", "does", made("span", "text", text));
    if (agent !== undefined) does.prepend(spoken(`agent ${agent}: `));
    if (answer !== "") does.append(made("span", "answer", ` ${answer}`));
    for (const tag of this.#tags(index)) does.append(made("span", "tag", tag));
    const mark = entry === undefined ? undefined : this.marks.get(entry);
    if (mark !== undefined) does.append(made("span", "mark", mark));
    does.title = does.textContent ?? "";
    row.append(number, this.#lanes(step, index), does, changesOf(changes));
    return row;
  }

  /** @param {number} index */
  #tags(index) {
    const { failing, racing, data, steps } = this.run;
    if (racing.some((pair) => pair.includes(index))) return ["races"];
    if (!failing.includes(index) || index === steps.length - 1) return [];
    return [data.ending === "deadlock" ? "waits for ever" : endingText(data.ending, data.detail)];
  }

  /** @param {Step} step @param {number} index */
  #lanes({ agent, fact, what }, index) {
    const lanes = made("span", "lanes");
    lanes.setAttribute("aria-hidden", "true");
    const waiting = this.waiting[index];
    const woken = /** @type {number[]} */ (fact?.found?.woken ?? []);
    const ends = agent === undefined ? [] : [agent, ...woken];
    for (let each = 0; each < this.run.data.agents; each += 1) {
      const isThere = each === agent || (index > 0 && index <= this.run.last[each]) || waiting.has(each);
      const lane = made("span", `lane a${each % 8}`);
      if (waiting.has(each)) lane.classList.add("waits");
      else if (isThere && what !== "end") lane.classList.add("runs");
      if (woken.length > 0) lane.classList.add(...acrossAt(each, Math.min(...ends), Math.max(...ends)));
      if (woken.includes(each)) lane.append(badge(each, "woken"));
      if (each === agent) lane.append(badge(each, PLAIN.has(what) ? "plain" : ""));
      lanes.append(lane);
    }
    return lanes;
  }
}

/** @param {Step[]} steps @returns {Set<number>[]} the agents that wait while each step is made */
function waitingAt(steps) {
  /** @type {Set<number>} */
  let waiting = new Set();
  return steps.map(({ what, agent, fact }) => {
    if (what === "leave" && agent !== undefined) waiting = new Set([...waiting].filter((each) => each !== agent));
    const now = waiting;
    const woken = /** @type {number[]} */ (fact?.found?.woken ?? []);
    if (woken.length > 0) waiting = new Set([...waiting].filter((each) => !woken.includes(each)));
    if (what === "wait" && agent !== undefined) waiting = new Set([...waiting, agent]);
    return now;
  });
}

/**
 * Which part of a line between two lanes goes through a lane.
 * @param {number} lane
 * @param {number} least
 * @param {number} most
 */
function acrossAt(lane, least, most) {
  if (lane < least || lane > most || least === most) return [];
  if (lane === least) return ["across", "to-the-right"];
  return lane === most ? ["across", "to-the-left"] : ["across"];
}

/** @param {import("./elements.mjs").Change[]} changes */
function changesOf(changes) {
  const [first, ...rest] = changes;
  const text = made("span", "changes");
  if (first === undefined) return text;
  const more = rest.length > 0 ? `, ${rest.length} more` : "";
  text.append(made("span", "name", first.name), ` ${first.before} → `, made("b", "", first.after), more);
  text.title = text.textContent ?? "";
  return text;
}
