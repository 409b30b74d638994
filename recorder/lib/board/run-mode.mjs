// How a run is made: whether it is a pilot, whether its agents print, and which accesses note their lines of code. The
// referee decides that before the run begins.

import { WORD } from "../memory/layout.mjs";

export class RunMode {
  /** @param {Int32Array} words of the board */
  constructor(words) {
    this.words = words;
  }

  /** @returns {boolean} whether the run is made to learn from alone */
  get isPilot() {
    return this.words[WORD.IS_PILOT] === 1;
  }

  set isPilot(isPilot) {
    this.words[WORD.IS_PILOT] = isPilot ? 1 : 0;
  }

  /** @returns {boolean} whether nothing is printed of what the agents print */
  get isSilent() {
    return this.words[WORD.IS_SILENT] === 1;
  }

  set isSilent(isSilent) {
    this.words[WORD.IS_SILENT] = isSilent ? 1 : 0;
  }

  /** @returns {boolean} whether calls of Atomics, and some ordinary accesses, note their lines of code */
  get notesLines() {
    return this.words[WORD.NOTES_SOURCES] === 1;
  }

  /** @param {number} most how many ordinary accesses note theirs wherever they are; less than 0: nothing notes any */
  noteLines(most) {
    this.words[WORD.NOTES_SOURCES] = most < 0 ? 0 : 1;
    this.words[WORD.LINES_LEFT] = most;
  }

  /** @returns {boolean} whether an ordinary access notes its line wherever it is, as one of the most */
  takesLine() {
    const { words } = this;
    if (words[WORD.LINES_LEFT] === 0) return false;
    words[WORD.LINES_LEFT] -= 1;
    return true;
  }
}
