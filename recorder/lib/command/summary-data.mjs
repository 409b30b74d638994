// What a summary has, as an object of JSON, and the parts of it that tallies make.

/** @template T @typedef {import("./tally.mjs").Tally<T>} Tally */

/** @typedef {import("../run/outcome.mjs").Outcome & { checked?: boolean }} SummaryOutcome */

/** @typedef {"seed" | "ending" | "detail" | "noScript" | "onlyIf" | "standing"} Always what each failing run has */
/** @typedef {Pick<SummaryOutcome, Always> & Partial<SummaryOutcome>} FailingOutcome */

/** @typedef {{ ending: string, shown: string[], named: string | null }} EndState how a run ended, and its bytes */

/** @typedef {{ ending: string, message: string[], sources: string[] }} FailureInShort what runs failed by, in short */

/**
 * @typedef {object} Stop that not all runs were made
 * @property {string} why
 * @property {number} wanted how many runs there were to be
 */

/**
 * @template T
 * @typedef {object} Listed what runs have in common
 * @property {(T & { runs: number, first: number })[]} listed with how many runs have it, and the least of their seeds
 * @property {number} others how many runs are counted under what isn't listed
 */

/** @template T @typedef {Listed<T & { early: number }>} FailingListed with how many runs need an early end */

/**
 * @typedef {object} SummaryData what a summary says about many runs: an object of JSON, whose members docs/FORMATS.md
 * explains
 * @property {Stop | null} stopped
 * @property {import("../seeds/ranges.mjs").SeedRange[]} missing seeds that were asked for, and about which nothing is
 * known
 * @property {number} runs
 * @property {number} failed
 * @property {Record<"failing" | "passing", { ending: string, runs: number, first: number }[]>} endings
 * @property {{ seed: number, ending: string, detail: string[], onlyIf: string | null, noScript: string | null,
 *   standing: import("../run/ending/standing.mjs").Standing[] } | null} firstFailing
 * @property {number} early how many of the failing runs fail only after the early end of a timed wait
 * @property {import("./only-by-time.mjs").OnlyByTimeData} onlyByTime
 * @property {number} threw how many of the runs that ended as `failed` threw
 * @property {FailingListed<FailureInShort>} failures those of all failing runs that have no ending `race`
 * @property {import("./shortened.mjs").ShorteningData | null} shortened the result of shortening that run
 * @property {{ allowed: boolean, runs: number, pairs: FailingListed<{ lines: string[] }> }} races
 * @property {{ allowed: boolean, runs: number, used: Listed<{ what: string }> }} unrecorded shared memory and threads
 * that aren't recorded, and that agents used
 * @property {{ runs: number, used: Listed<{ what: string }> }} real what programs used that the machine answers
 * @property {import("../seeds/first-again.mjs").Remembering | null} remembers how the run of the first seed differed
 * when it was made once more
 * @property {Record<"failing" | "passing", FailingListed<EndState & { hash: string }>>} states
 * @property {CheckedBy} sabsim
 * @property {{ parts: number, none: Listed<{ why: string }> }} scripts
 * @property {number} calls
 * @property {number | null} accesses null: they weren't seen
 * @property {string[]} unseen
 * @property {string[]} [untriedNodes] versions of node that ran programs, and that weren't tried. Earlier summaries of
 * this form have none
 * @property {import("../keeping/run-store.mjs").KeptFiles | null} kept
 * @property {string[]} notKept
 * @property {string[]} problems
 */

/**
 * @typedef {object} CheckedBy
 * @property {boolean} asked whether runs were to be checked by it
 * @property {string[]} versions of the module and of the programs that were asked, such as `module 87759d9a6ee9`
 * @property {number} checked about how many runs it says the same
 * @property {boolean} judges whether it has judged too which of these have unordered accesses
 */

/**
 * How all the runs ended.
 * @typedef {Partial<Pick<SummaryData, "stopped" | "missing" | "kept" | "notKept" | "problems">>} SummaryEnd
 */

/** @param {string[]} lines of code that race */
export const pairKey = (lines) => lines.join(" and ");

// A number, with its sign and its fraction.
const NUMBERS = /-?\d+(\.\d+)?/g;

/**
 * What is the same in runs that fail alike: the ending, the message up to its numbers, and the lines of code.
 * @param {FailureInShort} failure
 */
export const failureKey = ({ ending, message, sources }) =>
  [ending, ...message.map((line) => line.replaceAll(NUMBERS, "0")), ...sources].join("\n");

/**
 * Parts of a tally's entry.
 * @template T
 * @param {string} key
 * @param {T} [about]
 */
export const of = (key, about) => ({ key, about: /** @type {T} */ (about) });

/**
 * What a tally has, as a list of the summary.
 * @template T
 * @template {object} Part
 * @param {Tally<T>} tally
 * @param {(key: string, about: T) => Part} parts
 * @returns {Listed<Part>}
 */
export const listedOf = (tally, parts) => ({
  listed: tally.sorted().map(({ key, runs, first, about }) => ({ ...parts(key, about), runs, first })),
  others: tally.others,
});

/**
 * What a tally of runs has that may fail, as a list of the summary.
 * @template T
 * @template {object} Part
 * @param {Tally<T>} tally
 * @param {(key: string, about: T) => Part} parts
 * @returns {FailingListed<Part>}
 */
export const failingListOf = (tally, parts) => ({
  listed: tally.sorted().map(({ key, runs, early, first, about }) => ({ ...parts(key, about), runs, early, first })),
  others: tally.others,
});

/** @param {Tally<EndState>} tally */
export const statesData = (tally) =>
  failingListOf(tally, (hash, { ending, shown, named }) => ({ ending, hash, shown, named }));

/** @param {string[]} order @param {Tally<unknown>} tally */
export function endingsData(order, tally) {
  const entries = listedOf(tally, (ending) => ({ ending })).listed;
  return entries.sort((one, other) => order.indexOf(one.ending) - order.indexOf(other.ending));
}

/** @param {FailingOutcome} failing @returns {NonNullable<SummaryData["firstFailing"]>} */
export function failingData({ seed, ending, detail, onlyIf, noScript, standing = [] }) {
  const lines = detail === "" ? [] : detail.split("\n");
  return { seed, ending, detail: lines, onlyIf: onlyIf ?? null, noScript: noScript ?? null, standing };
}

/** @param {NonNullable<SummaryData["firstFailing"]>} data @returns {FailingOutcome} */
export function failingOf({ seed, ending, detail, onlyIf, noScript, standing }) {
  const known = /** @type {import("../run/outcome.mjs").Ending} */ (ending);
  return {
    seed, ending: known, detail: detail.join("\n"), onlyIf: onlyIf ?? undefined, noScript: noScript ?? undefined,
    standing,
  };
}
