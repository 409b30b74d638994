// A line that shows how far a search of every schedule is, on a terminal only, and if it takes longer than a second.

import { countText, digits } from "../run/words/summary-words.mjs";

const SHOWN_AFTER_MILLISECONDS = 1_000;
const BETWEEN_LINES_MILLISECONDS = 100;

export class EveryProgress {
  /**
   * @param {{ states: number, outcomes: unknown[] }} every what is searched: how many states there are so far, and the
   * real runs
   * @param {number} runs how many real runs there will be
   * @param {number} [after] after how many milliseconds it is shown
   */
  constructor(every, runs, after = SHOWN_AFTER_MILLISECONDS) {
    this.every = every;
    this.runs = runs;
    /** @type {ReturnType<typeof setTimeout> | undefined} */
    this.timer = process.stderr.isTTY ? setTimeout(() => this.#show(), after) : undefined;
  }

  /** Takes the line away. */
  end() {
    clearTimeout(this.timer);
    if (process.stderr.isTTY) process.stderr.write("\r\x1b[K");
  }

  #show() {
    const { every: { outcomes, states }, runs } = this;
    const made = `${digits(outcomes.length)} of ${countText(runs, "real run")}`;
    process.stderr.write(`\r\x1b[K${countText(states, "state")}, ${made}`);
    this.timer = setTimeout(() => this.#show(), BETWEEN_LINES_MILLISECONDS);
  }
}
