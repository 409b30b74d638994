// What `sabsim search --format json` writes, read back: a line for the whole, and one for each thing that was found.

/** @typedef {import("./result.mjs").Result} Result */

/** Lines that no search writes, or not all that one has written. */
export class BadLines extends Error {}

/** What lines are about, in the order in which they come. */
const KINDS = /** @type {const} */ (["deadlock", "failed", "no way out", "unknown", "conflict", "final"]);

/** @typedef {(typeof KINDS)[number]} LineKind */

/** The members of the first line, and of a line of each kind besides those that all have. */
const WHOLE = [
  "timeouts", "limit", "closed", "states", "acts", "expanded", "depth", "conflicts", "finals", "final_states",
];
const OWN = /** @type {Record<LineKind, string[]>} */ ({
  deadlock: [], failed: ["text"], "no way out": [], unknown: ["automaton", "node", "answer"], conflict: ["pair"],
  final: ["blocks"],
});

/** What the first line says besides of a search for which memory was wanting. */
const MEMORY = "memory";

/** So many are listed at most. */
const MOST = /** @type {Record<LineKind, number>} */ ({
  deadlock: 1, failed: Infinity, "no way out": 1, unknown: Infinity, conflict: 100, final: 1_000,
});

/** @param {boolean} holds @param {string} what is wrong if it doesn't @returns {asserts holds} */
function need(holds, what) {
  if (!holds) throw new BadLines(what);
}

/** @param {string} line @param {number} at its number from 0 @returns {any} */
function parsed(line, at) {
  try {
    return JSON.parse(line);
  } catch {
    throw new BadLines(`line ${at + 1} isn't JSON`);
  }
}

/** @param {object} row @param {string[]} names @param {number} at the number of its line */
function needMembers(row, names, at) {
  const [found, wanted] = [Object.keys(row ?? {}), names].map((all) => [...all].sort().join(", "));
  need(found === wanted, `line ${at + 1} has the members ${found}, and not ${wanted}`);
}

/**
 * @param {string} text all that was written
 * @returns {Result & { why?: "memory" }} and why it ended, if it was for want of memory
 * @throws {BadLines}
 */
export function resultIn(text) {
  need(text.endsWith("\n"), "the last line has no end");
  const [first, ...lines] = text.slice(0, -1).split("\n");
  const { why, ...whole } = parsed(first, 0) ?? {};
  needMembers(whole, WHOLE, 0);
  need(why === undefined || why === MEMORY, `line 1 says that ${why} has ended the search`);
  /** @type {Record<LineKind, any[]>} */
  const found = { deadlock: [], failed: [], "no way out": [], unknown: [], conflict: [], final: [] };
  let last = 0;
  lines.forEach((line, at) => {
    const { kind, ...row } = parsed(line, at + 1);
    const rank = KINDS.indexOf(kind);
    need(rank >= last, `line ${at + 2} is of the kind ${kind}, which isn't known or comes too late`);
    last = rank;
    needMembers(row, [...OWN[/** @type {LineKind} */ (kind)], "states", "schedule"], at + 1);
    found[/** @type {LineKind} */ (kind)].push(row);
  });
  for (const kind of KINDS) need(found[kind].length <= MOST[kind], `there are ${found[kind].length} lines of ${kind}`);
  const counts = /** @type {[LineKind, number][]} */ ([["conflict", whole.conflicts], ["final", whole.finals]]);
  for (const [kind, count] of counts) {
    const listed = Math.min(count, MOST[kind]);
    need(found[kind].length === listed, `there are ${found[kind].length} lines of ${kind}, and not ${listed}`);
  }
  return { ...resultOf(whole, found), ...(why === undefined ? {} : { why: MEMORY }) };
}

/** @param {any} whole the first line @param {Record<LineKind, any[]>} found @returns {Result} */
function resultOf({ conflicts, finals, final_states: finalStates, ...whole }, found) {
  return {
    ...whole, deadlock: found.deadlock[0] ?? null, failed: found.failed, no_way_out: found["no way out"][0] ?? null,
    unknown: found.unknown, conflicts: { count: conflicts, listed: found.conflict },
    final: { states: finalStates, count: finals, listed: found.final },
  };
}

/** @param {Result} result @returns {number} the status with which the search ends */
export function statusOf({ closed, conflicts, deadlock, failed, no_way_out: noWayOut, unknown }) {
  if (deadlock !== null || failed.length > 0 || noWayOut !== null || conflicts.count > 0) return 5;
  return unknown.length > 0 || !closed ? 6 : 0;
}
