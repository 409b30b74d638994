// The moves of turns in an order of their own. How many moves a turn has depends on the run: a wait that joins the line
// has two, and one that doesn't has three. So the turns are laid out by what is known, and replayed. If the replay
// shows that a wait does something else, they are laid out anew.

import { isStandIn } from "./report-entries.mjs";

/** @typedef {import("./report-entries.mjs").ReportEntry} ReportEntry */
/** @typedef {import("./report-entries.mjs").Report} Report */
/** @typedef {import("./turns.mjs").ScheduleMove} ScheduleMove */
/** @typedef {import("./turns.mjs").Script} Script */
/** @typedef {import("./turns.mjs").ScheduleTurn} ScheduleTurn */

/**
 * @typedef {"passes" | "joins" | "leaves" | "stuck"} TurnOutcome of a turn: the agent makes a call; it joins the line
 * of waiters; it ends a wait; it can't move
 */

/**
 * @typedef {object} Layout
 * @property {ScheduleMove[]} moves
 * @property {number[]} starts for each turn the position of its first move
 * @property {TurnOutcome[]} outcomes that the turns are laid out for
 */

/** @typedef {{ turns: ScheduleTurn[], moves: ScheduleMove[], starts: number[], report: Report }} Replayed */

const MOVES = { passes: 3, joins: 2, leaves: 2, stuck: 1 };

/** @param {number} agent @param {number} call */
const callKey = (agent, call) => `${agent} ${call}`;

/** @typedef {{ call: number, waits: boolean, isStuck: boolean }} At how far an agent is; stuck: it couldn't move */

/**
 * The outcome of a turn; only for waits it isn't known before.
 * @param {At} at
 * @param {(string | number)[][]} calls of the agent
 * @param {boolean} timeUp
 * @param {TurnOutcome | undefined} guess
 * @returns {TurnOutcome}
 */
function outcomeAt({ call, waits, isStuck }, calls, timeUp, guess) {
  if (waits && (guess === "leaves" || guess === "stuck")) return guess;
  if (waits) return isStuck ? "stuck" : "leaves";
  if (timeUp || call === calls.length) return "stuck";
  return calls[call][0] === "wait" && guess === "joins" ? "joins" : "passes";
}

/** @param {ReportEntry} first of a turn @param {ReportEntry | undefined} second @returns {TurnOutcome} */
function outcomeOf({ what }, second) {
  if (what === "leave") return "leaves";
  if (what === "stuck") return "stuck";
  return second?.what === "wait" ? "joins" : "passes";
}

/**
 * @param {Script} script
 * @param {ScheduleTurn[]} turns
 * @param {(turn: number, agent: number, at: At) => TurnOutcome | undefined} guess the outcome of a turn
 * @returns {Layout}
 */
function laidOut({ agents }, turns, guess) {
  const states = agents.map(() => ({ call: 0, waits: false, isStuck: false }));
  /** @type {Layout} */
  const layout = { moves: [], starts: [], outcomes: [] };
  turns.forEach(({ agent, timeUp }, turn) => {
    const [at, { calls }] = [states[agent], agents[agent]];
    const outcome = outcomeAt(at, calls, timeUp, guess(turn, agent, at));
    layout.starts.push(layout.moves.length);
    layout.outcomes.push(outcome);
    let count = MOVES[outcome];
    at.isStuck = outcome === "stuck";
    at.waits = outcome === "joins" || (at.waits && at.isStuck);
    if (outcome === "passes" || outcome === "leaves") {
      for (at.call += 1; at.call < calls.length && isStandIn(calls[at.call]); at.call += 1) count += MOVES.passes;
    }
    for (let move = 0; move < count; move += 1) layout.moves.push(timeUp && move === 0 ? { timeout: agent } : agent);
  });
  return layout;
}

/**
 * The outcome of each turn, by the entries of its first two moves.
 * @param {number[]} starts
 * @param {Report} report
 */
const outcomesOf = (starts, { entries }) => starts.map((start) => outcomeOf(entries[start], entries[start + 1]));

/**
 * Whether the turns of a script are whole, as `replayedWhole` makes them.
 * @param {Script} script
 * @param {Replayed} replayed with the moves that it has
 */
export function isWholeSchedule(script, { turns, moves, starts, report }) {
  const outcomes = outcomesOf(starts, report);
  return JSON.stringify(laidOut(script, turns, (turn) => outcomes[turn]).moves) === JSON.stringify(moves);
}

/** @param {Report} report @returns {Set<string>} the calls that join the line of waiters */
const joinsOf = ({ entries }) =>
  new Set(entries.filter(({ what }) => what === "wait").map(({ agent, call }) => callKey(agent, call)));

/**
 * Makes turns that are all whole: the agent makes its next call to the end, joins the line of waiters, or goes on from
 * there. If it can't move, the turn is one move without an effect.
 * @param {Script} script
 * @param {ScheduleTurn[]} turns
 * @param {(moves: ScheduleMove[]) => Report} replay
 * @param {Pick<Replayed, "turns" | "starts" | "report">} before in which most turns are the same
 * @returns {Replayed}
 */
export function replayedWhole(script, turns, replay, before) {
  const last = outcomesOf(before.starts, before.report);
  const known = new Map(before.turns.map((turn, at) => [turn, last[at]]));
  // The outcomes of the turns: sure for so many first ones, and guesses for the others.
  let sure = 0;
  let found = turns.map((turn) => known.get(turn));
  for (let { report } = before; ; ) {
    const joins = joinsOf(report);
    const { moves, starts, outcomes } = laidOut(script, turns, (turn, agent, { call, waits }) =>
      turn >= sure && !waits && joins.has(callKey(agent, call)) ? "joins" : found[turn]);
    report = replay(moves);
    found = outcomesOf(starts, report);
    const wrong = found.findIndex((outcome, turn) => outcome !== outcomes[turn]);
    if (wrong < 0) return { turns, moves, starts, report };
    sure = wrong + 1;
  }
}

/**
 * Makes turns with the moves that they have.
 * @param {ScheduleTurn[]} turns
 * @param {(moves: ScheduleMove[]) => Report} replay
 * @returns {Replayed}
 */
export function replayedAsWritten(turns, replay) {
  const moves = turns.flatMap((turn) => turn.moves);
  let next = 0;
  const starts = turns.map((turn) => (next += turn.moves.length) - turn.moves.length);
  return { turns, moves, starts, report: replay(moves) };
}
