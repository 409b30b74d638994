// Boards whose agents have all been started.

import assert from "node:assert/strict";
import { Board } from "../../lib/board/board.mjs";
import { waysOf } from "../../lib/board/strategy/ways.mjs";

/** @typedef {import("../../lib/board/drawn-schedule.mjs").WantedSchedule} WantedSchedule */

/** @typedef {{ seed?: number, row?: WantedSchedule, memory?: any } & Record<string, any>} HowBegun */

/**
 * @param {number} agents how many
 * @param {HowBegun} [how] the others are rules
 * @returns {Board}
 */
export function startedBoard(agents, how = {}) {
  const { seed = 1, row, memory = Board.memory(), ...rules } = how;
  const usual = { agents, ways: waysOf("uniform", true), maxMoves: 100_000, timeouts: 0.05 };
  const board = new Board(memory, { ...usual, ...rules });
  if (row !== undefined) board.row.begin(row);
  board.begin(seed);
  for (let agent = 1; agent < agents; agent += 1) assert.equal(board.pass(agent - 1), false);
  return board;
}

/**
 * A board whose agents are at a phase.
 * @param {number[]} phases
 * @param {HowBegun} [how]
 * @returns {Board}
 */
export function boardAt(phases, how) {
  const board = startedBoard(phases.length, how);
  phases.forEach((phase, agent) => board.line.become(agent, phase));
  return board;
}
