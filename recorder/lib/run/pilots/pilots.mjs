// What pilot runs show: which bytes several agents use and one of them writes, and which calls come beside an ordinary
// access to such a byte. There it matters who moves first. Pilots are runs of fixed seeds, so that each group learns
// the same, whatever runs it makes afterwards.

import { MAKE } from "../../board/journal.mjs";
import { MESSAGES } from "../../memory/blocks.mjs";
import { PLACES } from "../../memory/known-places.mjs";
import { FLAG, READ } from "../../memory/log.mjs";
import { MessageOrder } from "./message-order.mjs";

/** @typedef {import("../../memory/log.mjs").Log} Log */
/** @typedef {import("../../memory/known-places.mjs").KnownPlaces} KnownPlaces */

/** How many pilots there are. */
export const PILOTS = 8;

// After one pilot that has so many events, or ordinary accesses, there are no others: it has shown much, and another
// one would take as long.
const MANY_EVENTS = 50_000;
const MANY_ACCESSES = 200_000;

/** So many of the calls beside messages have to be private in each pilot, or nothing is gained by the next one. */
const WORTH = 0.25;

/** All agents, as bits. */
const ALL = 0xffff;

/** @param {number} agents as bits @returns {boolean} whether that is one at the most */
const isOne = (agents) => (agents & (agents - 1)) === 0;

/** An agent's last call, and whether it has touched a shared byte by ordinary accesses since. */
class Beside {
  /** @param {number} marks the agents whose calls at a place matter if this one's does, as bits */
  constructor(marks) {
    this.marks = marks;
    this.from = 0;
    this.to = 0;
    this.isShared = false;
  }
}

export class Pilots {
  /**
   * @param {number} agents how many
   * @param {KnownPlaces} places that will learn all of it
   * @param {boolean} [hasMessages] whether the last block is for messages, which order what is done
   */
  constructor(agents, places, hasMessages = false) {
    this.agents = agents;
    this.places = places;
    this.hasMessages = hasMessages;
    /** For each place, which agents use it and which of them write, as bits. */
    this.users = new Uint16Array(PLACES);
    this.writers = new Uint16Array(PLACES);
    /** @type {number[]} the places that any agent uses: few of all that there are */
    this.used = [];
    /** For places where agents meet, though by these bits they don't: whose calls matter there, as bits. */
    this.marked = new Uint16Array(PLACES);
    this.order = new MessageOrder(agents);
  }

  /**
   * Takes note of what a pilot did.
   * @param {Log} log
   */
  add(log) {
    this.order.begin(this.used);
    for (let event = 0; event < log.length; event += 1) this.#count(log, event);
    // Agents that send messages often use a place in order. Only the calls of some come beside what others do.
    const beside = Array.from({ length: this.agents }, (_, agent) => new Beside(this.hasMessages ? 1 << agent : ALL));
    for (let event = 0; event < log.length; event += 1) this.#mark(log, event, beside[log.agentAt(event)]);
  }

  /**
   * Whether a pilot was so long that it is to be the last.
   * @param {Log} log
   * @param {number} accesses how many ordinary ones it made
   */
  static isLong(log, accesses) {
    return log.length > MANY_EVENTS || accesses > MANY_ACCESSES;
  }

  /** @param {Log} log of the last pilot @returns {boolean} whether many of its calls need no draw, as far as shown */
  areWorth(log) {
    if (!this.hasMessages) return true;
    let all = 0;
    let own = 0;
    for (let event = 0; event < log.length; event += 1) {
      if (log.whatAt(event) >= READ || this.#isMessage(log, event)) continue;
      const place = this.places.placeOf(log.blockAt(event), log.fromAt(event));
      all += 1;
      if (place < PLACES && this.#alone(place) !== 0) own += 1;
    }
    return own > all * WORTH;
  }

  /** Teaches the places all of it. */
  teach() {
    const { places } = this;
    for (const place of this.used) {
      const alone = this.#alone(place);
      if (alone === 0) places.share(place);
      else if (isOne(alone)) places.giveTo(place, 31 - Math.clz32(alone));
      else if (this.writers[place] === 0) places.setReadAlone(place);
      else places.setOrdered(place);
    }
  }

  /** @param {Log} log @param {number} event */
  #count(log, event) {
    const flags = log.flagsAt(event);
    // A call that threw has touched nothing, and its index may be anything.
    if (flags === 0) return;
    const agent = log.agentAt(event);
    const block = log.blockAt(event);
    if (this.#isMessage(log, event)) {
      this.order.pass(agent, log.fromAt(event));
      return;
    }
    const isNotify = flags === FLAG.WAITERS && log.whatAt(event) === MAKE && this.places.canBePrivate(flags);
    const to = log.toAt(event);
    for (let byte = log.fromAt(event); byte < to; byte += 1) {
      const place = this.places.placeOf(block, byte);
      if (place >= PLACES) continue;
      if (this.users[place] === 0) this.used.push(place);
      this.users[place] |= 1 << agent;
      this.order.use(agent, place);
      if ((flags & FLAG.WRITES) !== 0) this.writers[place] |= 1 << agent;
      if ((flags & FLAG.WAITERS) !== 0 && !isNotify) this.marked[place] = ALL;
    }
  }

  /** @param {Log} log @param {number} event @param {Beside} beside of its agent */
  #mark(log, event, beside) {
    const hasThrown = log.flagsAt(event) === 0;
    const from = hasThrown ? 0 : this.places.placeOf(log.blockAt(event), log.fromAt(event));
    const to = hasThrown ? 0 : from + log.toAt(event) - log.fromAt(event);
    if (log.whatAt(event) < READ) {
      if (beside.isShared) this.#markAll(from, to, beside.marks);
      beside.from = from;
      beside.to = to;
      beside.isShared = false;
    } else if (!beside.isShared && this.#isAnyShared(from, to)) {
      this.#markAll(beside.from, beside.to, beside.marks);
      beside.isShared = true;
    }
  }

  /** @param {number} from @param {number} to @param {number} marks of agents, as bits */
  #markAll(from, to, marks) {
    for (let place = from; place < to && place < PLACES; place += 1) this.marked[place] |= marks;
  }

  /** @param {Log} log @param {number} event @returns {boolean} whether it sends or receives a message */
  #isMessage(log, event) {
    return this.hasMessages && log.blockAt(event) === MESSAGES && log.flagsAt(event) === FLAG.WAITERS;
  }

  /** @param {number} from @param {number} to */
  #isAnyShared(from, to) {
    for (let place = from; place < to; place += 1) {
      if (this.#isShared(place)) return true;
    }
    return false;
  }

  /** @param {number} place @returns {number} the agents whose calls there need no draw, as bits */
  #alone(place) {
    const alone = this.#isShared(place) ? 0 : this.users[place] & ~this.marked[place];
    // What is known about a place holds for one agent, or for all.
    return isOne(alone) || this.marked[place] === 0 ? alone : 0;
  }

  /**
   * @param {number} place
   * @returns {boolean} whether several agents use it, and one writes, and that in an order that no messages give
   */
  #isShared(place) {
    return !isOne(this.users[place]) && this.writers[place] !== 0 && !this.order.isOrdered(place);
  }
}
