// What is reported about the shortening of the run that is kept.

import { countText, digits } from "../run/words/summary-words.mjs";

/** @typedef {import("../seeds/job.mjs").ShortenedByJob} ShortenedByJob */
/** @typedef {import("../shorter/shorten.mjs").BeforeAndAfter} BeforeAndAfter */

/**
 * @typedef {object} ShorteningData as JSON
 * @property {number} runs how many it took
 * @property {BeforeAndAfter} changes of agents, in the run as it was found and in the shortest
 * @property {BeforeAndAfter} calls of Atomics that were begun, in the same two runs
 * @property {string | null} stopped why it was ended before all was tried
 * @property {string | null} unchanged why the run is kept as it was found; null: the shortest is kept
 * @property {boolean} checked whether sabsim says the same about the shortest run
 * @property {string[]} detail of the shortest run, if it isn't that of the run as it was found
 * @property {string | null} onlyIf what time must pass in the shortest run for the early end of a timed wait
 */

/**
 * @param {ShortenedByJob} found
 * @param {{ detail: string } | undefined} failing the run as it was found
 * @returns {ShorteningData}
 */
export function shorteningOf({ shortest, shortened }, failing) {
  const { runs, changes, calls, stopped = null, unchanged = null } = shortened;
  const { detail = "", checked = false, onlyIf = null } = shortest ?? {};
  const lines = detail === "" || detail === failing?.detail ? [] : detail.split("\n");
  return { runs, changes, calls, stopped, unchanged, checked, detail: lines, onlyIf };
}

/**
 * @param {ShorteningData | null} shortening
 * @param {string | null} before what time must pass in the run as it was found
 * @returns {string[]} lines; the first one isn't indented
 */
export function shortenedLines(shortening, before) {
  if (shortening === null) return [];
  const { runs, changes, calls, stopped, unchanged, checked, detail, onlyIf } = shortening;
  const made = [`in ${countText(runs, "run")}`, ...(stopped === null ? [] : [stopped])].join(", ");
  if (unchanged !== null) return [`not shortened: ${unchanged}${runs === 0 ? "" : `, ${made}`}`];
  const changed = `${countText(changes.before, "change")} of agents to ${digits(changes.after)}`;
  const called = `${countText(calls.before, "call")} to ${digits(calls.after)}`;
  const same = checked ? "; sabsim agrees with the recorder" : "";
  const needs = onlyIf === before ? [] : [onlyIf ?? "no timed wait ends early in it"];
  return [`shortened: ${changed}, ${called}, ${made}${same}`, ...[...detail, ...needs].map((line) => `  ${line}`)];
}
