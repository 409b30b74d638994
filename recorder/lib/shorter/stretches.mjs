// Rows as stretches: which agent moves, and for how many draws in a row.

import { moverOf } from "../board/drawn-schedule.mjs";

/**
 * @typedef {{ agent: number, draws: number }} Stretch of an agent; one to which real answers come has another number
 */

/** @param {number[]} row @returns {Stretch[]} no two neighbours of one agent */
export function stretchesOf(row) {
  /** @type {Stretch[]} */
  const stretches = [];
  for (const agent of row) {
    const last = stretches.at(-1);
    if (last?.agent === agent) last.draws += 1;
    else stretches.push({ agent, draws: 1 });
  }
  return stretches;
}

/** @param {Stretch[]} stretches @returns {number[]} */
export const rowOf = (stretches) => stretches.flatMap(({ agent, draws }) => Array(draws).fill(agent));

/** @param {number[]} row @returns {number} how often the agent that moves changes */
export const changesOf = (row) => Math.max(0, stretchesOf(row.map(moverOf)).length - 1);

/**
 * @param {Stretch[]} stretches
 * @param {number} at
 * @param {number} count
 * @returns {Stretch[]} all but so many from one on
 */
export const stretchesWithout = (stretches, at, count) => [...stretches.slice(0, at), ...stretches.slice(at + count)];

// An agent that isn't held up makes fewer calls, so it may need fewer draws if two of its stretches are joined.
const MOST_FEWER = 3;

/**
 * Rows in which two stretches of one agent are one. The agent's next stretch comes right after this one, or this one
 * right before the next, both with up to three draws less; or all that the agent does comes at once.
 * @param {Stretch[]} stretches
 * @param {number} at the stretch that is joined with others
 * @returns {Stretch[][]} none if the agent has no later one
 */
export function joinedFrom(stretches, at) {
  const { agent, draws } = stretches[at];
  const next = stretches.findIndex((each, place) => place > at && each.agent === agent);
  if (next < 0) return [];
  const before = stretches.slice(0, at);
  const between = stretches.slice(at + 1, next);
  const behind = stretches.slice(next + 1);
  const both = draws + stretches[next].draws;
  const rows = [];
  for (let less = 0; less <= MOST_FEWER && less < both; less += 1) {
    const joined = { agent, draws: both - less };
    rows.push([...before, joined, ...between, ...behind], [...before, ...between, joined, ...behind]);
  }
  const own = behind.filter((each) => each.agent === agent);
  const others = behind.filter((each) => each.agent !== agent);
  const all = { agent, draws: own.reduce((sum, each) => sum + each.draws, both) };
  return own.length === 0 ? rows : [...rows, [...before, all, ...between, ...others]];
}

/**
 * Rows in which a stretch is shorter: first the shortest, then by ever less; and each of them also so that what the
 * next agent does comes at once behind it.
 * @param {Stretch[]} stretches
 * @param {number} at
 * @returns {Stretch[][]}
 */
export function shortenedAt(stretches, at) {
  const { agent, draws } = stretches[at];
  const before = stretches.slice(0, at);
  const behind = stretches.slice(at + 1);
  const next = behind.filter((each) => each.agent === behind[0].agent);
  const others = behind.filter((each) => each.agent !== behind[0].agent);
  const all = next.map((each) => ({ agent: each.agent, draws: each.draws }));
  const rows = [];
  for (let less = draws - 1; less >= 1; less = Math.floor(less / 2)) {
    const shorter = { agent, draws: draws - less };
    rows.push([...before, shorter, ...behind]);
    if (next.length > 1) rows.push([...before, shorter, ...all, ...others]);
  }
  return rows;
}
