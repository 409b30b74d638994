// What goes along with a search of agents that use an object: which operation each agent has chosen and not begun, and
// the monitor's set. An operation begins with the agent's first act behind its mark, and ends with its last one.

import { NO_ORDER, NOT_JUDGED } from "../../objects/monitor.mjs";

/**
 * @typedef {object} Operations
 * @property {number} width how many numbers it has in a state's row
 * @property {() => void} begin nothing has begun
 * @property {(agent: number, call: number) => void} chooses an agent will begin a call of the object
 * @property {(agent: number) => void} acts an agent makes an act
 * @property {(agent: number, outcome: string) => void} ends an agent's operation ends
 * @property {(row: Int32Array, from: number) => void} write puts what it is at into a row
 * @property {(items: ArrayLike<number>, from: number) => void} read takes it from there
 * @property {(items: ArrayLike<number>, from: number) => boolean} isAt whether it is at that
 * @property {(one: number, other: number) => void} exchange exchanges two agents
 */

const NOTHING = 0;

/** @implements {Operations} */
export class MonitoredOperations {
  /**
   * @param {import("../../objects/monitor.mjs").Monitor} monitor
   * @param {{ numberOf: (outcome: string) => number }} outcomes
   * @param {number} agents how many
   */
  constructor(monitor, outcomes, agents) {
    this.monitor = monitor;
    this.outcomes = outcomes;
    this.width = 1 + agents;
    this.set = monitor.first;
    /** @type {import("../../objects/history.mjs").HistoryEvent[] | undefined} gets all that begins and ends */
    this.journal = undefined;
    /** @type {number[]} of each agent one more than the call that it has chosen and not begun */
    this.chosen = Array.from({ length: agents }, () => NOTHING);
  }

  /** Whether no order of the operations fits. */
  get isWrong() {
    return this.set === NO_ORDER;
  }

  /** Whether the set is known. */
  get isJudged() {
    return this.set !== NOT_JUDGED;
  }

  begin() {
    this.set = this.monitor.first;
    for (let agent = 0; agent < this.chosen.length; agent += 1) this.chosen[agent] = NOTHING;
  }

  /** @param {number} agent @param {number} call */
  chooses(agent, call) {
    this.chosen[agent] = call + 1;
  }

  /** @param {number} agent */
  acts(agent) {
    if (this.chosen[agent] === NOTHING) return;
    const call = this.chosen[agent] - 1;
    this.journal?.push({ agent, call });
    this.set = this.monitor.begins(this.set, agent, call);
    this.chosen[agent] = NOTHING;
  }

  /** @param {number} agent @param {string} outcome */
  ends(agent, outcome) {
    this.journal?.push({ agent, outcome });
    this.set = this.monitor.ends(this.set, agent, this.outcomes.numberOf(outcome));
  }

  /** @param {Int32Array} row @param {number} from */
  write(row, from) {
    row[from] = this.set;
    for (let agent = 0; agent < this.chosen.length; agent += 1) row[from + 1 + agent] = this.chosen[agent];
  }

  /** @param {ArrayLike<number>} items @param {number} from */
  read(items, from) {
    this.set = items[from];
    for (let agent = 0; agent < this.chosen.length; agent += 1) this.chosen[agent] = items[from + 1 + agent];
  }

  /** @param {ArrayLike<number>} items @param {number} from @returns {boolean} */
  isAt(items, from) {
    if (items[from] !== this.set) return false;
    for (let agent = 0; agent < this.chosen.length; agent += 1) {
      if (items[from + 1 + agent] !== this.chosen[agent]) return false;
    }
    return true;
  }

  /** @param {number} one @param {number} other */
  exchange(one, other) {
    this.set = this.monitor.exchanged(this.set, one, other);
    const before = this.chosen[one];
    this.chosen[one] = this.chosen[other];
    this.chosen[other] = before;
  }
}
