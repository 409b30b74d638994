// The second search: the proved one. What it has found must be what the first has.

import { isDeepStrictEqual } from "node:util";
import { NotAsLearned } from "./not-as-learned.mjs";
import { NotSearched, provedSearch } from "./proved.mjs";

/** @typedef {import("./search/file.mjs").FileData} FileData */
/** @typedef {import("./search/result.mjs").Result} Result */
/** @typedef {import("./learning/findings.mjs").Finding} Finding */

/** @typedef {(data: FileData, bounds: import("./proved.mjs").ProvedSearchLimits) => Promise<Result>} SecondSearch */

/** @typedef {{ result: Result, why?: undefined } | { result?: undefined, why: string }} Second or why there is none */

/**
 * @typedef {object} SecondSearchOptions
 * @property {string} [program] the path of the native program, if it is to search
 * @property {AbortSignal} [signal]
 * @property {import("./proved.mjs").Thread} [thread] that was begun for it
 * @property {SecondSearch} [search] in place of the proved one, for tests
 */

/**
 * Has a file searched a second time, and compares: the kinds, their numbers of states, and the bytes at the end. It may
 * show other schedules.
 * @param {FileData} data
 * @param {Result} result of the search in JavaScript
 * @param {SecondSearchOptions} how
 * @returns {Promise<Second>}
 * @throws {NotAsLearned}
 */
export async function comparedBySecond(data, result, { search = provedSearch, ...how } = {}) {
  const { timeouts, limit } = result;
  let other;
  try {
    other = await search(data, { timeouts, limit, size: JSON.stringify(result).length, ...how });
  } catch (problem) {
    if (problem instanceof NotSearched) return { why: problem.message };
    throw problem;
  }
  needKnown(other);
  const [own, theirs] = [countsOf(result), countsOf(other)];
  for (const name of /** @type {(keyof typeof own)[]} */ (Object.keys(own))) {
    if (isDeepStrictEqual(own[name], theirs[name])) continue;
    const both = [own[name], theirs[name]].map((one) => JSON.stringify(one)).join(", and ");
    throw new NotAsLearned(`the two searches differ in ${name}: ${both}`);
  }
  return { result: other };
}

/** @param {Result} result that may have no edge that isn't known */
function needKnown({ unknown: [first] }) {
  if (first === undefined) return;
  const { answer, automaton, node } = first;
  const where = `node ${node} of automaton ${automaton}`;
  throw new NotAsLearned(`the proved search reaches ${where} with the answer ${answer}, which wasn't learned`);
}

/** @param {{ states: number } | null} kind */
const statesOf = (kind) => kind?.states ?? 0;

/** @param {Result} result what must be the same in both */
const countsOf = ({ timeouts, limit, closed, states, acts, expanded, depth, deadlock, failed, ...rest }) => ({
  bounds: [timeouts, limit], closed, states, acts, far: [expanded, depth], deadlock: statesOf(deadlock),
  noWayOut: statesOf(rest.no_way_out), failed: failed.map(({ text, states: many }) => [text, many]).sort(),
  unknown: rest.unknown.map(({ automaton, node, answer, states: many }) => [automaton, node, answer, many]),
  conflicts: [rest.conflicts.count, rest.conflicts.listed.map(({ pair, states: many }) => [pair, many])],
  final: [rest.final.states, rest.final.count, rest.final.listed.map(({ blocks, states: many }) => [blocks, many])],
});

/**
 * What the summary says about each thing must be what the proved search has found.
 * @param {Finding[]} findings
 * @param {Result} result of the proved search
 * @param {boolean} neverEnds whether no agent ever ends: it is no finding then that there is no way out
 * @throws {NotAsLearned}
 */
export function needFound(findings, { deadlock, failed, conflicts, no_way_out: noWayOut }, neverEnds = false) {
  const wanted = {
    deadlock: statesOf(deadlock), threw: failed.reduce((sum, { states }) => sum + states, 0),
    "no way out": neverEnds ? 0 : statesOf(noWayOut),
  };
  for (const kind of /** @type {(keyof typeof wanted)[]} */ (Object.keys(wanted))) {
    const own = findings.filter((one) => one.kind === kind).reduce((sum, { states }) => sum + states, 0);
    if (own === wanted[kind]) continue;
    throw new NotAsLearned(`the proved search has found ${kind} in ${wanted[kind]} states, and it is shown for ${own}`);
  }
  const races = findings.some(({ kind }) => kind === "race");
  if (races !== conflicts.count > 0) throw new NotAsLearned("one of the two searches alone has found a race");
}
