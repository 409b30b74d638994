// A line that shows how far the runs are, on a terminal only.

import { digits } from "../run/words/summary-words.mjs";

const BETWEEN_LINES_MILLISECONDS = 100;

export class Progress {
  /** @param {number} runs how many there will be */
  constructor(runs) {
    this.runs = runs;
    this.shown = process.stderr.isTTY ? 0 : Infinity;
  }

  /** @param {import("./summary.mjs").Summary} summary */
  show({ runs, failed }) {
    const now = performance.now();
    if (now - this.shown < BETWEEN_LINES_MILLISECONDS) return;
    this.shown = now;
    process.stderr.write(`\r${digits(runs)} of ${digits(this.runs)} runs, ${digits(failed)} failed`);
  }

  /** @param {number} seed whose run is shortened @param {import("../shorter/shorten.mjs").ShortenProgress} tried */
  showShortening(seed, { runs, changes }) {
    const now = performance.now();
    if (now - this.shown < BETWEEN_LINES_MILLISECONDS) return;
    this.shown = now;
    const so = `${digits(changes)} changes of agents so far`;
    process.stderr.write(`\r\x1b[Kshortening the run of seed ${digits(seed)}: ${digits(runs)} runs, ${so}`);
  }

  /** Takes the line away. */
  clear() {
    if (process.stderr.isTTY) process.stderr.write("\r\x1b[K");
  }
}
