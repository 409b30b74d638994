// When each move of a schedule will be made, at the latest: so a wait can be given a timeout that ends just where the
// schedule says that its time is up.
//
// All timeouts come from one plan, so they end in the order of the schedule, however many agents wait. Moves are made
// as fast as they can be, and only the end of a wait's time is awaited. The plan has room for what the moves before it
// take; as long as no wait with a timeout goes on, it can be begun anew.

import { JOIN_TIME } from "./crew.mjs";

/** @typedef {import("./script.mjs").Script} Script */

// How long a move takes that doesn't join the line, in milliseconds.
const MOVE_TIME = 0.2;

// Of many moves one in so many joins the line, for its agent has to begin the call, to leave and to return too.
const MOVES_OF_A_WAIT = 4;

// What a timeout has to spare, in milliseconds.
const SPARE_TIME = 30;

export class Timeline {
  /** When the plan begins, on the clock of `performance.now()`. */
  #begin = 0;

  /**
   * @param {Script} script
   * @param {number} stretch how many times longer than expected everything may take
   */
  constructor({ schedule, agents }, stretch) {
    this.schedule = schedule;
    const waits = agents.flatMap(({ calls }) => calls.filter((call) => call.method === "wait")).length;
    const stepTime = MOVE_TIME + JOIN_TIME * Math.min(waits / schedule.length, 1 / MOVES_OF_A_WAIT);
    let time = 0;
    /** When each move is over, counted from the plan's beginning. */
    this.ends = schedule.map((move) => (time += stretch * (move.isTimeUp ? SPARE_TIME : stepTime)));
  }

  /**
   * Begins the plan anew: the move at a position is made now.
   * @param {number} position
   */
  restart(position) {
    this.#begin = performance.now() - (this.ends[position - 1] ?? 0);
  }

  /**
   * When the time of an agent's wait will be up that acts at a position; Infinity where the schedule never says so.
   * @param {number} agent
   * @param {number} position
   * @returns {number} on the clock of `performance.now()`
   */
  deadline(agent, position) {
    const end = this.schedule.findIndex((move, at) => at > position && move.isTimeUp && move.agent === agent);
    return end < 0 ? Infinity : this.#begin + this.ends[end];
  }
}
