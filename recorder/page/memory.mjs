// What is in memory, and who waits there, in a browser.

import { badge, by, made, spoken } from "./dom.mjs";
import { sizeOf, valueAt } from "./elements.mjs";
import { placeKey } from "./model.mjs";

/** @typedef {import("./model.mjs").Run} Run */
/** @typedef {import("./model.mjs").State} State */

/** What is in memory, and who waits there. */
export class Memory {
  /** @param {Run} run */
  constructor(run) {
    this.run = run;
    this.body = /** @type {HTMLElement} */ (by("memory").querySelector("tbody"));
  }

  /** @param {Run} run */
  open(run) {
    this.run = run;
    const isPart = run.data.holds === "touched";
    const note = "Of ordinary writes, only those to bytes that some call touches are known.";
    by("memory-note").textContent = isPart ? note : "";
  }

  /** @param {State} state @param {number} index of the step */
  show(state, index) {
    const { steps, rows } = this.run;
    this.state = state;
    this.accesses = steps[index].accesses;
    this.isNow = state.changedBy === index;
    this.body.replaceChildren(...rows.map((row) => this.#row(row)));
  }

  /** @param {import("./memory-rows.mjs").Row} row */
  #row({ name, isWord, cells, more }) {
    const values = made("td", "values", ...cells.map((cell) => this.#cell(cell, isWord)));
    if (more > 0) values.append(made("span", "more", `and ${more} more`));
    const head = made("th", "", name);
    head.setAttribute("scope", "row");
    return made("tr", "", head, values, made("td", "waiters", ...cells.flatMap((cell) => this.#waiters(cell, isWord))));
  }

  /** @param {import("./elements.mjs").Cell} cell @param {boolean} isWord */
  #cell(cell, isWord) {
    const { blocks, before } = /** @type {State} */ (this.state);
    const size = sizeOf(cell.view);
    const access = this.accesses?.find((each) =>
      each.block === cell.block && each.byte < cell.byte + size && cell.byte < each.byte + each.size);
    const [was, is] = [before, blocks].map((bytes) => valueAt(bytes[cell.block], cell));
    const isChanged = was !== is;
    const span = made("span", "cell");
    if (!isWord) span.append(made("span", "index", cell.label.slice(cell.label.indexOf("["))));
    if (isChanged && this.isNow) span.append(made("s", "", was), spoken(" became "));
    span.append(made("span", "value", is));
    if (access !== undefined) span.classList.add(access.writes ? "written" : "read");
    if (isChanged) span.classList.add(this.isNow ? "now" : "before");
    if (isChanged) span.append(spoken(this.isNow ? " (changed now)" : " (changed last)"));
    return span;
  }

  /** @param {import("./elements.mjs").Cell} cell @param {boolean} isWord */
  #waiters({ block, byte, label }, isWord) {
    const line = this.state?.lines.get(placeKey(block, byte)) ?? [];
    if (line.length === 0) return [];
    const where = isWord ? [] : [made("span", "index", label.slice(label.indexOf("[")))];
    const agents = line.map((agent) => badge(agent));
    return [made("span", "line-of-waiters", ...where, spoken("agents "), ...agents)];
  }
}
