// The plain text of a summary. It is made from the object that `--format json` prints, and from nothing else.

import { endingText, endingsText } from "../../page/endings.mjs";
import { bytesText } from "../run/ending/final-state.mjs";
import { countText, digits, listed } from "../run/words/summary-words.mjs";
import { rememberingText } from "../seeds/first-again.mjs";
import { rangeText } from "../seeds/ranges.mjs";
import { onlyByTimeLines } from "./only-by-time.mjs";
import { shortenedLines } from "./shortened.mjs";
import { isOnlyEarly } from "./tally.mjs";

/** @typedef {import("./summary-data.mjs").SummaryData} SummaryData */

/** @template T @typedef {import("./summary-data.mjs").Listed<T>} Listed */

const MOST_LISTED = 8;

/** @param {SummaryData} summary @returns {string} lines, each with its end */
export function summaryText(summary) {
  const { stopped, missing, runs, unseen, untriedNodes = [], kept, notKept } = summary;
  const lines = missing.map(missingText);
  if (stopped !== null) lines.push(`${stopped.why} after ${digits(runs)} of ${countText(stopped.wanted, "run")}`);
  if (runs > 0) {
    lines.push(endingLine(summary), ...failingLines(summary), ...failureLines(summary), ...raceLines(summary));
    lines.push(...hiddenLines(summary), ...unrecordedLines(summary), ...realLines(summary));
    lines.push(...rememberingLines(summary));
    lines.push(...stateLines(summary));
    lines.push(...checkLines(summary), ...scriptLines(summary), accessLine(summary));
    lines.push(...unseen, ...untriedNodes.map(untriedText));
  }
  if (kept !== null) lines.push(`kept in ${kept.folder}: ${kept.files.join(", ")}`, ...kept.notes ?? []);
  return [...lines, ...notKept].map((line) => `${line}\n`).join("");
}

/** @param {import("../seeds/ranges.mjs").SeedRange} range of seeds about which nothing is known @returns {string} */
export const missingText = (range) => `no summary has the ${rangeText(range)}`;

/** @param {SummaryData} summary */
function endingLine(summary) {
  const { runs, failed, endings } = summary;
  const counts = failedCounts(summary);
  const failing = endings.failing.map((each) => `${digits(each.runs)} ${endingsText(each.ending, counts)}`).join(", ");
  const passing = endings.passing.map((each) => `${digits(each.runs)} ${passingText(each.ending)}`).join(", ");
  if (failed === 0) return `${countText(runs, "run")}: ${passing}`;
  const first = `${digits(failed)} of ${countText(runs, "run")} failed: ${failing}`;
  return failed === runs ? first : `${first}; ${passing}`;
}

/** @param {SummaryData} summary how many runs ended as `failed`, and how many of these threw */
function failedCounts({ endings, threw }) {
  return { failed: endings.failing.find(({ ending }) => ending === "failed")?.runs ?? 0, threw };
}

/** @param {SummaryData} summary */
function failingLines({ early, firstFailing, shortened }) {
  if (firstFailing === null) return [];
  const { seed, ending, detail, onlyIf, noScript } = firstFailing;
  const lines = [...detail, ...(onlyIf === null ? [] : [onlyIf])];
  if (noScript !== null) lines.push(`it has no script: ${noScript}`);
  const how = endingText(ending, detail.join("\n"));
  const shown = [`first failing seed: ${seed}, ${how}`, ...lines.map(indented), ...shortenedLines(shortened, onlyIf)];
  if (early === 0) return shown;
  const [run, fails] = early === 1 ? ["run", "fails"] : ["runs", "fail"];
  return [`${digits(early)} failing ${run} ${fails} only after the early end of a timed wait (--timeouts)`, ...shown];
}

/** @param {SummaryData} summary @returns {string[]} the lost wake-ups that a time hides */
function hiddenLines({ onlyByTime, runs }) {
  return listed(onlyByTimeLines(onlyByTime, runs), MOST_LISTED, (line) => line);
}

/** @param {{ runs: number, early: number }} entry @returns {string} that all of its runs need an early end, if so */
const onlyEarlyText = (entry) => (isOnlyEarly(entry) ? ", only after the early end of a timed wait" : "");

/** @param {SummaryData} summary what runs failed by, if that isn't what the first failing one says alone */
function failureLines({ firstFailing, failures }) {
  if (failures.listed.every(({ first }) => first === firstFailing?.seed)) return [];
  const lines = listed(failures.listed, MOST_LISTED, ({ runs, early, first, ending, message, sources }) => {
    const how = endingText(ending, message.join("\n"));
    const places = sources.filter((source) => !message.some((line) => line.includes(source)));
    const where = places.length === 0 ? "" : `, at ${places.join(" and ")}`;
    const which = `${countText(runs, "run")} ${how}, seed ${first} the first${onlyEarlyText({ runs, early })}`;
    return [`${which}${where}`, ...message.map(indented)].join("\n");
  });
  const many = countedOf(failures.listed.length, "kind", failures.others);
  const all = lines.flatMap((line) => line.split("\n").map(indented));
  return [`${many} of failure, by message and line of code`, ...all, ...othersLines(failures.others)];
}

/** @param {SummaryData} summary */
function raceLines({ races: { allowed, runs, pairs } }) {
  if (runs === 0) return [];
  const title = allowed ? "unordered accesses, allowed" : "unordered accesses";
  const lines = listed(pairs.listed, MOST_LISTED, ({ lines: both, runs: raced, early, first }) => {
    const many = `${countText(raced, "run")}${onlyEarlyText({ runs: raced, early })}`;
    return `seed ${first} the first, ${many}: ${both.join(" and ")}`;
  });
  const many = countedOf(pairs.listed.length, "pair", pairs.others);
  const head = `${title}: ${countText(runs, "run")}, ${many} of lines`;
  return [head, ...lines.map(indented), ...othersLines(pairs.others)];
}

/** @param {SummaryData} summary */
function unrecordedLines({ unrecorded: { allowed, runs, used } }) {
  if (runs === 0) return [];
  const that = allowed ? ", which is allowed" : "";
  return [`agents used what isn't recorded${that}: ${countText(runs, "run")}`, ...usedLines(used)];
}

/** @param {SummaryData} summary @returns {string[]} what programs used that the machine answers */
function realLines({ real: { runs, used } }) {
  if (runs === 0) return [];
  const title = `${countText(runs, "run")} used sockets, pipes or child processes, `
    + "and repeat only as far as their input does";
  return [runs === 1 ? title.replace(/repeat (.*)their/, "repeats $1its") : title, ...usedLines(used)];
}

/** @param {Listed<{ what: string }>} used @returns {string[]} */
function usedLines(used) {
  const lines = listed(used.listed, MOST_LISTED, ({ what, runs: each, first }) =>
    `seed ${first} the first, ${countText(each, "run")}: ${what}`);
  return [...lines.map(indented), ...othersLines(used.others)];
}

/** @param {SummaryData} summary */
const rememberingLines = ({ remembers }) => (remembers === null ? [] : [rememberingText(remembers)]);

/** @param {SummaryData} summary */
function stateLines(summary) {
  const { failing, passing } = summary.states;
  const counts = failedCounts(summary);
  const failed = failing.listed.map((state) => ({ ...state, how: endingsText(state.ending, counts) }));
  const passed = passing.listed.map((state) => ({ ...state, how: passingText(state.ending) }));
  const lines = listed([...failed, ...passed], MOST_LISTED, ({ runs, early, first, how, shown, named }) => {
    const which = `${countText(runs, "run")} ${how}, seed ${first} the first${onlyEarlyText({ runs, early })}`;
    return `${which}: ${named ?? bytesText(shown)}`;
  });
  const others = failing.others + passing.others;
  const many = countedOf(failed.length + passed.length, "final state", others);
  const what = [...failed, ...passed].some(({ named }) => named !== null) ? "the values" : "the bytes";
  return [`${many}: how it ended, and ${what}`, ...lines.map(indented), ...othersLines(others)];
}

/** The forms of the simulator, by the first word of a version. */
const FORMS = new Map([["module", "WebAssembly module"], ["program", "native program"]]);

/** @param {SummaryData} summary */
function checkLines({ runs, sabsim: { asked, checked, judges, versions }, scripts: { none } }) {
  const withoutScript = none.listed.reduce((sum, each) => sum + each.runs, none.others);
  // Of runs without a script, other lines say why they weren't replayed. Their traces may have been judged.
  if (checked === 0) return asked && withoutScript === runs ? [] : ["no run was checked"];
  const some = `${digits(checked)} of ${countText(runs, "run")} ${checked === 1 ? "was" : "were"}`;
  const which = checked === runs ? "every run was" : some;
  const kinds = [...new Set(versions.map((version) => version.split(" ", 1)[0]))];
  const forms = kinds.map((kind) => FORMS.get(kind) ?? kind);
  // The text has no number of the runs that repeat one about which the module was asked: it depends on the jobs.
  const repeats = checked > 1 && kinds.includes("module") ? ", except exact repeats" : "";
  const how = `replayed ${judges ? "and judged " : ""}by the simulator (${forms.join(" and ")})`;
  return [`${which} ${how}${repeats}: it agrees with the recorder`];
}

/** @param {SummaryData} summary */
function scriptLines({ sabsim: { asked }, scripts: { parts, none } }) {
  const lines = listed(none.listed, MOST_LISTED, ({ why, runs }) => {
    const [have, were] = runs === 1 ? ["1 run has", "wasn't"] : [`${digits(runs)} runs have`, "weren't"];
    return `${have} no script${asked ? `, and ${were} replayed` : ""}: ${why}`;
  });
  const all = [...lines, ...othersLines(none.others)];
  if (parts === 0) return all;
  const [hold, their] = parts === 1 ? ["1 script holds", "its"] : [`${digits(parts)} scripts hold`, "their"];
  const touched = `${hold} only the ordinary writes of bytes that calls touch, since not all fit`;
  return [`${touched}; ${their} other bytes weren't compared`, ...all];
}

/** @param {string} version of node */
const untriedText = (version) => `programs weren't tried on node ${version}: README says on which versions they were`;

/** @param {SummaryData} summary */
function accessLine({ runs, calls, accesses }) {
  const made = `${countText(runs, "run")} made ${calls === 0 ? "no call" : countText(calls, "call")} of Atomics`;
  if (accesses === null) return made;
  if (accesses === 0) return `${made}, and no ordinary read or write`;
  return `${made}, and ${countText(accesses, "ordinary read or write", "ordinary reads and writes")}`;
}

/**
 * @param {number} count of what is listed
 * @param {string} what
 * @param {number} others how many runs are counted under what isn't
 */
const countedOf = (count, what, others) => (others === 0 ? countText(count, what) : `over ${countText(count, what)}`);

/**
 * What is said about runs whose states, pairs or reasons there was no room for.
 * @param {number} others how many runs they are counted in
 */
const othersLines = (others) => (others === 0 ? [] : [indented(`and those of ${countText(others, "run")} besides`)]);

/** @param {string} line */
const indented = (line) => `  ${line}`;

/**
 * An ending of a run that doesn't fail.
 * @param {string} ending
 */
const passingText = (ending) =>
  (ending === "finished" || ending === "blocked" ? endingText(ending, "") : `${endingText(ending, "")} (allowed)`);
