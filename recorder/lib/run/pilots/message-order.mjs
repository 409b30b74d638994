// Which places agents use only in an order that their messages give. What one does before it sends a message comes
// before all that another does after it has received that. There no draw decides which is first.

import { PLACES } from "../../memory/known-places.mjs";

export class MessageOrder {
  /** @param {number} agents how many */
  constructor(agents) {
    /** For each agent, how far it has come, and how far it knows each other one to have come. */
    this.clocks = Array.from({ length: agents }, () => new Uint32Array(agents));
    /** @type {Map<number, Uint32Array>} by messages: how far all had come when it was sent */
    this.sent = new Map();
    /** For each place, the agent that used it last in this run, from 1 on, and how far it had come. */
    this.users = new Uint8Array(PLACES);
    this.times = new Uint32Array(PLACES);
    /** The one that used it first in the first run. */
    this.firsts = new Uint8Array(PLACES);
    /** The places that two agents have used in another order than by messages. */
    this.unordered = new Uint8Array(PLACES);
  }

  /**
   * A run begins.
   * @param {number[]} used the places that were used in those before
   */
  begin(used) {
    for (const clock of this.clocks) clock.fill(0);
    this.clocks.forEach((clock, agent) => {
      clock[agent] = 1;
    });
    this.sent.clear();
    for (const place of used) this.users[place] = 0;
  }

  /**
   * An agent sends a message, or receives it.
   * @param {number} agent
   * @param {number} message
   */
  pass(agent, message) {
    const clock = this.clocks[agent];
    const before = this.sent.get(message);
    before?.forEach((time, other) => {
      clock[other] = Math.max(clock[other], time);
    });
    this.sent.set(message, clock.slice());
    clock[agent] += 1;
  }

  /** @param {number} agent that uses a place now @param {number} place */
  use(agent, place) {
    const clock = this.clocks[agent];
    const last = this.users[place] - 1;
    if (last < 0) {
      if (this.firsts[place] === 0) this.firsts[place] = agent + 1;
      else if (this.firsts[place] !== agent + 1) this.unordered[place] = 1;
    } else if (last !== agent && clock[last] < this.times[place]) this.unordered[place] = 1;
    this.users[place] = agent + 1;
    this.times[place] = clock[agent];
  }

  /** @param {number} place @returns {boolean} whether it is used in no other order */
  isOrdered(place) {
    return this.unordered[place] === 0;
  }
}
