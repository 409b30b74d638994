// The text of a module, in which each statement ends with its semicolon, and its tree.

import { Refused } from "../../options/refused.mjs";
import { withSemicolons } from "./semicolons.mjs";

/** @typedef {import("./tree.mjs").Tree} Tree */

export class ModuleText {
  /**
   * @param {string} file its name for messages
   * @param {string} written as the file has it
   * @param {(source: string) => Tree} parse
   * @throws {Refused} if it can't be parsed
   */
  constructor(file, written, parse) {
    this.file = file;
    try {
      const { source, original } = withSemicolons(parse(written), written);
      this.source = source;
      this.tree = parse(source);
      this.original = original;
    } catch (error) {
      throw new Refused(`--all can't read ${file}: ${/** @type {Error} */ (error).message}`);
    }
    this.written = written;
  }

  /** @param {number} place in the text @returns {string} its line and column in the file */
  lineOf(place) {
    const before = this.written.slice(0, this.original(place)).split("\n");
    return `${before.length}:${before[before.length - 1].length + 1}`;
  }
}
