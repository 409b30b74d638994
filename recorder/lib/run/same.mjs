// Whether two runs did the same.

import { isRealAnswer, moverOf } from "../board/drawn-schedule.mjs";

/** @typedef {import("./outcome.mjs").BriefOutcome} BriefOutcome */
/**
 * @typedef {"seed" | "ending" | "detail" | "moves" | "calls" | "state" | "noScript" | "real" | "row"
 * | "choices"} ComparedName
 */
/** @typedef {Pick<BriefOutcome, ComparedName>} RunSummary with its row if it got real answers */

/**
 * Whether two runs of a seed did the same, as far as every run reports. If they got real answers, their rows are
 * compared too, and so are their agents' choices, if there are some.
 * @param {RunSummary} one
 * @param {RunSummary} other
 */
export function areSame(one, other) {
  /** @param {RunSummary} summary */
  const parts = ({ ending, calls, state, choices = [] }) =>
    [ending, calls, state.hash, JSON.stringify(choices)].join(" ");
  if (parts(one) !== parts(other)) return false;
  // An answer on which no agent moves is counted as a move, too.
  if (one.real && one.row && other.row) return firstOtherMove(one.row, other.row) === undefined;
  return one.moves === other.moves;
}

/**
 * The moves of a row. Of its answers only those are left on which an agent makes its next move: the others may come in
 * other pieces, and at another time.
 * @param {number[]} row
 * @returns {{ drawn: number, at: number }[]} with their positions in the row
 */
function movesOf(row) {
  /** @type {Set<number>} agents whose next move is none by an answer */
  const moving = new Set();
  const moves = [];
  for (let at = row.length - 1; at >= 0; at -= 1) {
    const [drawn, agent] = [row[at], moverOf(row[at])];
    if (!isRealAnswer(drawn) || moving.delete(agent)) moves.push({ drawn, at });
    if (!isRealAnswer(drawn)) moving.add(agent);
  }
  return moves.reverse();
}

/**
 * Where a run first differs from the row that it was to go by.
 * @param {number[]} row that was wanted
 * @param {number[]} made the run's own
 * @returns {number | undefined} a position in the row that was wanted, or its length; undefined: they are the same
 */
export function firstOtherMove(row, made) {
  const [wanted, own] = [movesOf(row), movesOf(made)];
  const at = wanted.findIndex(({ drawn }, number) => own[number]?.drawn !== drawn);
  if (at >= 0) return wanted[at].at;
  return own.length > wanted.length ? row.length : undefined;
}
