// What made a failing run fail, in a few lines, so that runs that fail alike are counted together.

/**
 * @typedef {object} Failure
 * @property {string[]} message the first lines of what was thrown, or what the agents were at
 * @property {string[]} sources the lines of code where that was, as file, line and column
 */

// More of a message isn't kept: there may be many kinds of failures.
const MOST_LINES = 3;
const MOST_CHARACTERS = 160;

/** A line of a stack, and the place in it. */
const FRAME = /^\s+at (?:async )?(?:.*\()?([^()]+:\d+:\d+)\)?$/;
const IS_FRAME = /^\s+at /;

/** A place in a text that names some. */
const PLACE = /[^\s,()]+:\d+:\d+/g;

/** @param {string[]} lines */
const shortened = (lines) => lines.slice(0, MOST_LINES).map((line) => line.slice(0, MOST_CHARACTERS));

/**
 * What was thrown: the message, and the innermost line of code that isn't node's own.
 * @param {string} detail
 * @param {import("../words/source-names.mjs").SourceNames} sourceNames
 * @returns {Failure}
 */
export function thrownIn(detail, sourceNames) {
  const lines = detail.split("\n");
  const first = lines.findIndex((line) => IS_FRAME.test(line));
  const message = lines.slice(0, first < 0 ? lines.length : first).filter((line) => line.trim() !== "");
  const places = lines.flatMap((line) => FRAME.exec(line)?.[1] ?? []);
  const place = places.find((each) => !each.startsWith("node:"));
  return { message: shortened(message), sources: place === undefined ? [] : [sourceNames.nameOf(place)] };
}

/**
 * What agents were at when none could go on, or one met a limit.
 * @param {string} detail one line; empty in a deadlock
 * @param {{ name: string, source: string }[]} waits where agents waited; a source that isn't known is empty
 * @returns {Failure}
 */
export function standstillOf(detail, waits) {
  const names = [...new Set(waits.map(({ name }) => `an agent waits at ${name}`))].sort();
  const known = waits.map(({ source }) => source).filter((source) => source !== "");
  const sources = new Set([...detail.match(PLACE) ?? [], ...known]);
  return { message: shortened(detail === "" ? names : [detail, ...names]), sources: [...sources].sort() };
}
