// An agent's own counts, if the tool chooses when time passes and what chance gives, as in all runs of `--all`: the
// time that clocks show it, and how many draws it has made that are never equal to others. The time goes on when the
// agent looks and a long time has passed, and to the end of a timed wait that has timed out.

import { SCRIPT_LIMITS } from "../../script/limits.mjs";

/** @typedef {"anew" | "lasting"} ChosenTime whether an agent's clock begins anew in each round, at `again` */

/** How long a long time is, in milliseconds. */
const LONG = 1e9;

/** Into so many parts it divides a millisecond: so a difference of two times doesn't go by when it has begun. */
const PARTS = 1024;

/** A time that is as long has no smaller parts. */
const WHOLE = 2 ** 42;

const { agents: MOST_AGENTS } = SCRIPT_LIMITS;
const { ceil, max } = Math;

export class OwnClock {
  /** @param {boolean} isLasting whether it goes on from round to round, and doesn't begin anew at `again` */
  constructor(isLasting) {
    this.isLasting = isLasting;
    /** At which time it begins, in milliseconds, and behind how many draws. */
    this.start = 0;
    /** What time it is. */
    this.time = 0;
    /** How many draws were made. */
    this.drawn = 0;
  }

  /** @param {number} [start] at which time it begins, and behind how many draws */
  begin(start = 0) {
    this.start = start;
    this.time = start;
    this.drawn = start;
  }

  /** A round begins. */
  round() {
    if (!this.isLasting) this.begin(this.start);
  }

  /** @param {number} milliseconds that a wait has had at least, whose time is up: below 0 it has had none */
  timeOut(milliseconds) {
    const had = max(milliseconds, 0);
    this.time += had < WHOLE ? ceil(had * PARTS) / PARTS : had;
  }

  /** @param {number} many how many long times have passed @returns {number} what time it is */
  look(many) {
    this.time += many * LONG;
    return this.time;
  }

  /** @param {number} agent that draws @returns {number} a number that no other draw has, also of another agent */
  draw(agent) {
    this.drawn += 1;
    return this.drawn * MOST_AGENTS + agent;
  }

  /** @returns {string} how far it is since its beginning */
  sinceStart() {
    return `${this.time - this.start} ${this.drawn - this.start}`;
  }
}
