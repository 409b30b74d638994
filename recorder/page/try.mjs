// The page to try the simulator: a script that a reader writes, what is wrong with it, and what happens when it runs.

import { Editing, outputOf } from "../schedule/editing.mjs";
import { Changeable } from "./changeable.mjs";
import { scriptData } from "./changed.mjs";
import { by, made } from "./dom.mjs";
import { Run } from "./model.mjs";
import { spanOfPlace } from "./places.mjs";
import { simulateBy } from "./simulate.mjs";

/** @typedef {import("../schedule/editing.mjs").Simulate} Simulate */
/** @typedef {{ examples: { name: string, text: string }[] }} TryData */

const TABS = ["steps", "report", "picture"];
const TYPING_MILLISECONDS = 150;
// After the start, which isn't an agent's step.
const FIRST_STEP = 1;

const NOTES = ["These are the same calls in another order. A program might take another path, and make other calls."];

/** @param {Uint8Array} bytes */
const textOf = (bytes) => new TextDecoder().decode(bytes);

class TryPage {
  /** @param {TryData} data @param {Simulate} simulate */
  constructor({ examples }, simulate) {
    this.simulate = simulate;
    this.text = /** @type {HTMLTextAreaElement} */ (by("text"));
    /** @type {Changeable | undefined} */
    this.shown = undefined;
    const select = /** @type {HTMLSelectElement} */ (by("examples"));
    select.append(...examples.map(({ name }) => made("option", "", name)));
    select.addEventListener("change", () => this.write(examples[select.selectedIndex].text));
    /** @type {ReturnType<typeof setTimeout> | undefined} */
    this.timer = undefined;
    this.text.addEventListener("input", () => {
      clearTimeout(this.timer);
      this.timer = setTimeout(() => this.take(), TYPING_MILLISECONDS);
    });
    by("show-place").addEventListener("click", () => this.#showPlace());
    this.#listenToTabs();
    this.write(examples[0].text);
  }

  /** @param {string} text */
  write(text) {
    this.text.value = text;
    this.text.scrollTop = 0;
    this.take();
  }

  /** Takes the script as it is written now. */
  take() {
    try {
      this.#take(this.text.value);
    } catch (problem) {
      by("check").textContent = `The simulator failed: ${/** @type {Error} */ (problem).message}`;
      by("stale").hidden = false;
    }
  }

  /** @param {string} text */
  #take(text) {
    const { status, output, complaint } = this.simulate(["check"], new TextEncoder().encode(text));
    const said = textOf(output) || textOf(complaint);
    by("check").textContent = said.trimEnd();
    by("check").className = status === 0 ? "" : "refused";
    this.place = status === 0 ? undefined : spanOfPlace(text, said.split(": ")[0]);
    by("show-place").hidden = this.place === undefined;
    by("stale").hidden = status === 0;
    if (status !== 0) {
      // A change would overwrite the text that is refused.
      this.shown?.freeze();
      return;
    }
    const editing = new Editing(text, this.simulate);
    const run = new Run(scriptData(editing.script, editing.now.report));
    const words = { was: "written", fileName: "script.json", notes: () => NOTES };
    this.shown ??= new Changeable(run, words, () => this.#onChange());
    this.shown.open(run, FIRST_STEP);
    this.shown.edit(editing);
    this.#report(text);
  }

  /** The schedule was changed by a button or a key. */
  #onChange() {
    const text = this.shown?.editing?.text ?? "";
    this.text.value = text;
    by("check").textContent = textOf(this.simulate(["check"], new TextEncoder().encode(text)).output).trimEnd();
    this.#report(text);
  }

  /** @param {string} text of a script that isn't refused */
  #report(text) {
    const [report, picture] = ["explained", "svg"].map((format) =>
      outputOf(this.simulate, ["replay", "--format", format], text));
    by("report").querySelector("pre")?.replaceChildren(report);
    by("picture").querySelector("img")?.setAttribute("src", `data:image/svg+xml,${encodeURIComponent(picture)}`);
    const { output, complaint } = this.simulate(["judge"], new TextEncoder().encode(text));
    by("verdict").textContent = (textOf(output) || textOf(complaint)).trimEnd();
  }

  #showPlace() {
    if (this.place === undefined) return;
    this.text.focus();
    this.text.setSelectionRange(...this.place);
  }

  #listenToTabs() {
    const tabs = TABS.map((name) => by(`tab-${name}`));
    /** @param {number} chosen */
    const choose = (chosen) => TABS.forEach((name, at) => {
      tabs[at].setAttribute("aria-selected", `${at === chosen}`);
      tabs[at].tabIndex = at === chosen ? 0 : -1;
      by(name).hidden = at !== chosen;
    });
    tabs.forEach((tab, at) => tab.addEventListener("click", () => choose(at)));
    by("tabs").addEventListener("keydown", (event) => {
      const way = { ArrowRight: 1, ArrowLeft: -1 }[event.key];
      const at = tabs.indexOf(/** @type {HTMLElement} */ (event.target));
      if (way === undefined || at < 0) return;
      event.preventDefault();
      event.stopPropagation();
      const next = (at + way + tabs.length) % tabs.length;
      choose(next);
      tabs[next].focus();
    });
  }
}

/**
 * Opens the page.
 * @param {import("./simulate.mjs").SimulatorClass} Simulator the loader's
 */
export async function openPage(Simulator) {
  try {
    new TryPage(JSON.parse(by("run").textContent ?? ""), await simulateBy(Simulator));
  } catch (problem) {
    by("about").textContent = `The simulator can't run here: ${/** @type {Error} */ (problem).message}`;
  }
}
