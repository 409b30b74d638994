// What can be done to the turns of a schedule. Each operation returns other turns, or says why it can't be done. It
// changes nothing itself.

/** @typedef {import("./fitting.mjs").Replayed} Replayed */
/** @typedef {import("./turns.mjs").ScheduleTurn} ScheduleTurn */

/** @typedef {{ turns: ScheduleTurn[], at: number }} Edited the turns, and where the one is now that was chosen */
/** @typedef {{ why: string }} NotEdited */
/** @typedef {(replayed: Replayed, at: number) => Edited | NotEdited} Edit of the turn at a position */

const FIXED = "stores for ordinary writes, and for what init left, keep their place";

/** @param {ScheduleTurn[]} turns @param {number} at @param {number} removed @param {...ScheduleTurn} added */
const spliced = (turns, at, removed, ...added) => [...turns.slice(0, at), ...added, ...turns.slice(at + removed)];

/**
 * Changes the order of two turns that follow each other.
 * @param {ScheduleTurn[]} turns
 * @param {number} first
 * @param {number} chosen the one that was chosen
 * @returns {Edited | NotEdited}
 */
function swapped(turns, first, chosen) {
  const [one, other] = [turns[first], turns[first + 1]];
  if (one === undefined) return { why: "it is the first" };
  if (other === undefined) return { why: "it is the last" };
  if (one.isFixed || other.isFixed) return { why: FIXED };
  if (one.agent === other.agent) return { why: `agent ${one.agent} makes its calls in their order` };
  return { turns: spliced(turns, first, 2, other, one), at: chosen === first ? first + 1 : first };
}

/**
 * Moves a turn before the one that comes before it.
 * @type {Edit}
 */
export const earlier = ({ turns }, at) => swapped(turns, at - 1, at);

/**
 * Moves a turn after the one that comes after it.
 * @type {Edit}
 */
export const later = ({ turns }, at) => swapped(turns, at, at);

/**
 * Takes a turn away. Its agent makes the same calls, with one turn less.
 * @param {Replayed} replayed
 * @param {number} at
 * @returns {Edited | NotEdited}
 */
export function dropped({ turns }, at) {
  if (turns[at].isFixed) return { why: FIXED };
  return { turns: spliced(turns, at, 1), at: Math.max(0, at - 1) };
}

/**
 * Ends the time of the wait that a turn begins, right after it. The turn in which the agent went on from the wait
 * becomes that turn. If there is none, a turn is added.
 * @param {Replayed} replayed
 * @param {number} at
 * @returns {Edited | NotEdited}
 */
export function timeEnded({ turns, starts, report: { entries } }, at) {
  const { agent } = turns[at];
  const wait = entries.slice(starts[at], starts[at + 1]).find(({ what }) => what === "wait");
  if (wait === undefined) return { why: `agent ${agent} doesn't begin to wait here` };
  if (wait.does.length < 5) return { why: "this wait has no timeout" };
  const next = turns.findIndex((turn, each) => each > at && turn.agent === agent);
  const isEnd = next >= 0 && entries[starts[next]].what === "leave";
  if (isEnd && next === at + 1) return { why: "its time already ends right after it" };
  const rest = isEnd ? spliced(turns, next, 1) : turns;
  const end = { agent, timeUp: true, isFixed: false, moves: [{ timeout: agent }, agent] };
  return { turns: spliced(rest, at + 1, 0, end), at: at + 1 };
}
