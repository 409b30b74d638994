// Summaries of several command lines, joined as if one had made all runs.

import { readFileSync } from "node:fs";
import { Refused } from "../options/refused.mjs";
import { readAll } from "../processes/read-all.mjs";
import { seedsWithout, united } from "../seeds/ranges.mjs";
import { differenceOf } from "./requested-runs.mjs";
import { FORM, whyNoSummary } from "./summary-form.mjs";
import { Summary } from "./summary.mjs";

/** @typedef {import("./summary-form.mjs").WholeSummary} WholeSummary */

/**
 * @typedef {object} SummaryPart
 * @property {string} name of its file, and of its line if that isn't the only one
 * @property {WholeSummary} summary
 */

const STANDARD_INPUT = "-";
const STANDARD_INPUT_FILE = 0;

/**
 * The summaries of a file: one of JSON, or one on each line.
 * @param {string} file its path; `-`: standard input
 * @returns {SummaryPart[]}
 * @throws {Refused}
 */
export function partsOf(file) {
  const name = file === STANDARD_INPUT ? "standard input" : file;
  const text = textOf(file, name);
  const all = parsed(text);
  if (all !== undefined) return [part(name, all)];
  const lines = text.split("\n").map((line, at) => ({ line, at: at + 1 })).filter(({ line }) => line.trim() !== "");
  if (lines.length === 0) throw new Refused(`${name} has no summary: it is empty`);
  return lines.map(({ line, at }) => part(`line ${at} of ${name}`, parsed(line)));
}

/** @param {string} file @param {string} name */
function textOf(file, name) {
  try {
    return file === STANDARD_INPUT ? readAll(STANDARD_INPUT_FILE).toString("utf8") : readFileSync(file, "utf8");
  } catch (error) {
    throw new Refused(`${name} can't be read: ${/** @type {Error} */ (error).message}`);
  }
}

/** @param {string} text @returns {unknown} undefined if it is no JSON */
function parsed(text) {
  try {
    return JSON.parse(text);
  } catch {
    return undefined;
  }
}

/** @param {string} name @param {unknown} value @returns {SummaryPart} */
function part(name, value) {
  const why = value === undefined ? "it is no JSON" : whyNoSummary(value);
  if (why !== undefined) throw new Refused(`${name} is no summary of the recorder: ${why}`);
  return { name, summary: /** @type {WholeSummary} */ (value) };
}

/**
 * Joins summaries. The joined summary of all shards is the same as that of a command line with all seeds.
 * @param {SummaryPart[]} parts one at least
 * @returns {WholeSummary}
 * @throws {Refused} if they don't fit together
 */
export function merged(parts) {
  needsFitting(parts);
  const summaries = parts.map(({ summary }) => summary).sort((one, other) => firstSeed(one) - firstSeed(other));
  const [{ asked }] = summaries;
  const { ordinary, races, unrecorded, preloads } = /** @type {any} */ (asked.options);
  const joined = new Summary({ ordinary, races, unrecorded, preloads });
  for (const summary of summaries) joined.join(summary);
  const askedSeeds = united(summaries.flatMap((summary) => summary.asked.seeds));
  const seeds = united(summaries.flatMap((summary) => summary.seeds));
  const missing = seedsWithout(askedSeeds, seeds);
  const problems = summaries.flatMap((summary) => summary.problems);
  const data = joined.data({ stopped: stoppedOf(summaries), missing, problems });
  const shard = null;
  return { summary: FORM, asked: { ...asked, seeds: askedSeeds, shard }, seeds, ...data, ...keptOf(summaries, data) };
}

/** @param {WholeSummary} summary */
const firstSeed = ({ seeds: [first] }) => first?.first ?? 0;

/**
 * @param {SummaryPart[]} parts
 * @throws {Refused} if one was asked for something else, or two have the same seed
 */
function needsFitting(parts) {
  const [first, ...others] = parts;
  for (const { name, summary } of others) {
    const difference = differenceOf(first.summary.asked, summary.asked);
    if (difference !== undefined) throw new Refused(`${first.name} and ${name} don't fit together: ${difference}`);
  }
  const ranges = parts.flatMap(({ name, summary }) => summary.seeds.map((range) => ({ name, ...range })));
  ranges.sort((one, other) => one.first - other.first);
  ranges.forEach((range, at) => {
    // Those before it end one after the other, so only the one just before it may have some of its seeds.
    const before = ranges[at - 1];
    if (before === undefined || before.last < range.first) return;
    throw new Refused(`${before.name} and ${range.name} don't fit together: both have seed ${range.first}`);
  });
}

/**
 * @param {WholeSummary[]} summaries
 * @returns {import("./summary-data.mjs").Stop | null} that not all of their runs were made
 */
function stoppedOf(summaries) {
  const whys = summaries.flatMap(({ stopped }) => (stopped === null ? [] : [stopped.why]));
  if (whys.length === 0) return null;
  const wanted = summaries.reduce((sum, { stopped, runs }) => sum + (stopped?.wanted ?? runs), 0);
  return { why: [...new Set(whys)].join(", "), wanted };
}

/**
 * What the run of the first failing seed has left: its files, and what belongs to it alone.
 * @param {WholeSummary[]} summaries
 * @param {import("./summary-data.mjs").SummaryData} data the summary of all
 * @returns {Pick<WholeSummary, "shortened" | "kept" | "notKept">}
 */
function keptOf(summaries, { firstFailing }) {
  const owner = firstFailing === null
    ? summaries.find(({ kept }) => kept !== null)
    : summaries.find((summary) => summary.firstFailing?.seed === firstFailing.seed);
  if (owner === undefined) return { shortened: null, kept: null, notKept: [] };
  const { shortened, kept, notKept } = owner;
  // It was given from the folder in which that command line ran.
  return { shortened, kept: kept === null ? null : { ...kept, folder: kept.path }, notKept };
}
