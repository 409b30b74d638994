// The steps of a run in a browser: the timeline, the chosen step in words, memory, and code if it is known; and how
// keys and buttons go from step to step.

import { Code } from "./code.mjs";
import { badge, by, made, spoken } from "./dom.mjs";
import { Memory } from "./memory.mjs";
import { Timeline } from "./timeline.mjs";

/** @typedef {import("./model.mjs").Run} Run */
/** @typedef {import("./steps.mjs").Step} Step */

const PAGE_OF_STEPS = 10;

const MOVES = new Map([
  ["ArrowUp", "back"], ["ArrowLeft", "back"], ["ArrowDown", "forward"], ["ArrowRight", "forward"], ["Home", "first"],
  ["End", "last"], ["PageUp", "ten-back"], ["PageDown", "ten-forward"],
]);
const LETTERS = new Map([["p", "switch-back"], ["n", "switch-forward"], ["f", "failing"]]);

// Elements that scroll by keys, or that take text, keep their keys.
const KEEPS_KEYS = "#code, #memory-pane, textarea, select, .keeps-keys";

/**
 * @typedef {object} ViewerHost what the page does for it
 * @property {() => void} onChosen another step is chosen
 * @property {(key: string) => boolean} onLetter whether a key in the timeline is one of the page's own; then it is done
 */

export class Viewer {
  /** @param {Run} run @param {ViewerHost} host */
  constructor(run, host) {
    this.run = run;
    this.host = host;
    this.index = -1;
    this.timeline = new Timeline(run, (index) => this.choose(index));
    this.code = document.getElementById("code") === null ? undefined : new Code(run);
    this.memory = new Memory(run);
    this.#listen();
  }

  /**
   * Shows a run.
   * @param {Run} run of the same agents, and with the same code
   * @param {number} index of the step that is chosen
   * @param {Map<number, string>} [marks] of steps, by their entries
   */
  open(run, index, marks = new Map()) {
    this.run = run;
    this.index = -1;
    this.timeline.open(run, marks);
    this.memory.open(run);
    this.choose(index);
  }

  /** @param {number} wanted */
  choose(wanted) {
    const { steps } = this.run;
    const index = Math.max(0, Math.min(wanted, steps.length - 1));
    if (index === this.index) return;
    this.index = index;
    const state = this.run.stateAt(index);
    // A long sentence takes room from the panes below it, so it is written first.
    this.#describe(steps[index]);
    this.timeline.choose(index);
    this.code?.show(state, steps[index].agent);
    this.memory.show(state, index);
    this.host.onChosen();
  }

  /** Brings the chosen step and its line of code into view once more: other parts have taken room from their panes. */
  reveal() {
    const { index, run } = this;
    this.timeline.choose(index);
    this.code?.show(run.stateAt(index), run.steps[index].agent);
  }

  /** @param {Step} step */
  #describe({ agent, entry, sentence, place }) {
    const who = agent === undefined ? [] : [badge(agent), spoken(` agent ${agent} `), " "];
    const number = entry === undefined ? [] : [made("span", "number", `${entry}`), " "];
    const where = place < 0 ? [] : [" ", made("span", "where", this.run.data.places[place])];
    by("sentence").replaceChildren(...number, ...who, made("span", "fact", sentence), ...where);
    by("position").textContent = `step ${this.index} of ${this.run.steps.length - 1}`;
    const isAt = { first: this.index === 0, last: this.index === this.run.steps.length - 1 };
    for (const id of ["first", "back", "switch-back"]) by(id).setAttribute("aria-disabled", `${isAt.first}`);
    for (const id of ["last", "forward", "switch-forward"]) by(id).setAttribute("aria-disabled", `${isAt.last}`);
  }

  /**
   * What each way to go leads to.
   * @param {string} way
   */
  #go(way) {
    const { index, run } = this;
    const last = run.steps.length - 1;
    switch (way) {
      case "first": return this.choose(0);
      case "last": return this.choose(last);
      case "back": return this.choose(index - 1);
      case "forward": return this.choose(index + 1);
      case "ten-back": return this.choose(index - PAGE_OF_STEPS);
      case "ten-forward": return this.choose(index + PAGE_OF_STEPS);
      case "switch-back": return this.choose(run.changeFrom(index, -1));
      case "switch-forward": return this.choose(run.changeFrom(index, 1));
      default: return this.choose(run.failingFrom(index));
    }
  }

  #listen() {
    for (const button of by("buttons").querySelectorAll("button")) {
      button.addEventListener("click", () => this.#go(button.id));
    }
    document.addEventListener("keydown", (event) => {
      const { target, key, ctrlKey, altKey, metaKey } = event;
      if (ctrlKey || altKey || metaKey || !(target instanceof Element) || target.closest(KEEPS_KEYS) !== null) return;
      const { pane } = this.timeline;
      const isLetters = target === pane || target === document.body || target.closest("[role=toolbar]") !== null;
      const way = MOVES.get(key) ?? (isLetters ? LETTERS.get(key) : undefined);
      if (way !== undefined) this.#go(way);
      if (way !== undefined || (isLetters && this.host.onLetter(key))) event.preventDefault();
    });
  }
}
