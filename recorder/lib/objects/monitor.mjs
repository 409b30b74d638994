// The monitor of an object's histories: which configurations some order of the operations can leave that fits what has
// begun and ended. A configuration is a state of the model, and for each agent that it is idle, that its operation is
// pending, or that the operation has taken effect with some outcome. The sets are exact: they are closed under effects.

/**
 * @typedef {object} SequentialObject what is right: the object, used by one agent alone
 * @property {number} first its first state
 * @property {(state: number, call: number) => ModelStep | undefined} step undefined: it has too many states
 */

/**
 * @typedef {{ isBlocked: true } | { isBlocked: false, states: number[], outcome: number }} ModelStep it can lead to
 * several states, if it goes by chance
 */

/** @typedef {number[]} Configuration the model's state, and then a number for each agent */

const IDLE = 0;

/** @param {number} call @returns {number} */
const pending = (call) => 2 * call + 1;

/** @param {number} outcome @returns {number} */
const done = (outcome) => 2 * outcome + 2;

/** @param {number} cell @returns {boolean} */
const isPending = (cell) => cell % 2 === 1;

/** @param {number} cell that is pending @returns {number} its call */
const callIn = (cell) => (cell - 1) / 2;

/** The set without a configuration: no order fits. */
export const NO_ORDER = 0;

/** In place of a set that is too large, or that needs too many states of the model. */
export const NOT_JUDGED = -1;

/** More configurations of a set aren't gone through. */
export const MOST_CONFIGURATIONS = 100_000;

export class Monitor {
  /**
   * @param {SequentialObject} model
   * @param {number} agents how many
   * @param {(number | undefined)[]} mayFail by calls the outcome that is always right, if there is one
   * @param {number} [most] configurations of a set
   */
  constructor(model, agents, mayFail, most = MOST_CONFIGURATIONS) {
    this.model = model;
    this.mayFail = mayFail;
    this.most = most;
    /** @type {Configuration[][]} by their numbers, each sorted */
    this.sets = [];
    /** @type {Map<string, number>} */
    this.numbers = new Map();
    /** @type {Map<string, number>} what came of what, by the set and what happened */
    this.known = new Map();
    this.#numberOf([]);
    this.first = this.#numberOf([[model.first, ...Array.from({ length: agents }, () => IDLE)]]);
  }

  /**
   * An agent begins an operation.
   * @param {number} set
   * @param {number} agent that is idle
   * @param {number} call
   * @returns {number} the set behind it
   */
  begins(set, agent, call) {
    if (set <= NO_ORDER) return set;
    return this.#once(`b ${set} ${agent} ${call}`, () =>
      this.#closed(this.sets[set].map((one) => withCell(one, agent, pending(call)))));
  }

  /**
   * An agent's operation ends.
   * @param {number} set
   * @param {number} agent
   * @param {number} outcome
   * @returns {number} the set behind it
   */
  ends(set, agent, outcome) {
    if (set <= NO_ORDER) return set;
    return this.#once(`e ${set} ${agent} ${outcome}`, () => this.sets[set]
      .filter((one) => one[agent + 1] === done(outcome)).map((one) => withCell(one, agent, IDLE)));
  }

  /** @param {number} set @param {number} agent @returns {number[]} the outcomes that its operation can have then */
  outcomesIn(set, agent) {
    if (set <= NO_ORDER) return [];
    const cells = this.sets[set].map((one) => one[agent + 1]).filter((cell) => cell !== IDLE && !isPending(cell));
    return [...new Set(cells)].map((cell) => (cell - 2) / 2).sort((one, other) => one - other);
  }

  /**
   * @param {number} set that has a configuration
   * @returns {boolean} whether in some order no open operation has taken effect, or can
   */
  isRightlyBlocked(set) {
    return this.sets[set].some((one) => one.every((cell, at) =>
      at === 0 || cell === IDLE || (isPending(cell) && this.#isBlocked(one[0], callIn(cell)))));
  }

  /** @param {number} set @returns {boolean} whether an operation is open */
  hasOpen(set) {
    return set > NO_ORDER && this.sets[set][0].some((cell, at) => at > 0 && cell !== IDLE);
  }

  /**
   * @param {number} set
   * @param {number} one agent
   * @param {number} other agent, with which it is exchanged
   * @returns {number}
   */
  exchanged(set, one, other) {
    if (set <= NO_ORDER) return set;
    return this.#once(`x ${set} ${one} ${other}`, () => this.sets[set].map((each) =>
      withCell(withCell(each, one, each[other + 1]), other, each[one + 1])));
  }

  /** @param {string} name @param {() => Configuration[] | undefined} make @returns {number} */
  #once(name, make) {
    let number = this.known.get(name);
    if (number === undefined) {
      const set = make();
      number = set === undefined ? NOT_JUDGED : this.#numberOf(set);
      this.known.set(name, number);
    }
    return number;
  }

  /** @param {Configuration[]} set @returns {number} */
  #numberOf(set) {
    const named = set.map((one) => one.join()).sort().join(";");
    let number = this.numbers.get(named);
    if (number === undefined) {
      number = this.sets.length;
      this.numbers.set(named, number);
      this.sets.push(set);
    }
    return number;
  }

  /**
   * @param {Configuration[]} begun
   * @returns {Configuration[] | undefined} with all to which pending operations lead; undefined: that is too much
   */
  #closed(begun) {
    const found = new Map(begun.map((one) => [one.join(), one]));
    for (const one of found.values()) {
      for (let agent = 0; agent < one.length - 1; agent += 1) {
        if (!isPending(one[agent + 1])) continue;
        const after = this.#effects(one, agent);
        if (after === undefined) return undefined;
        for (const next of after) found.set(next.join(), next);
      }
      if (found.size > this.most) return undefined;
    }
    return [...found.values()];
  }

  /**
   * @param {Configuration} one
   * @param {number} agent whose operation is pending
   * @returns {Configuration[] | undefined} what there can be when it has taken effect; undefined: that isn't known
   */
  #effects(one, agent) {
    const call = callIn(one[agent + 1]);
    const step = this.model.step(one[0], call);
    if (step === undefined) return undefined;
    const fails = this.mayFail[call];
    const after = fails === undefined ? [] : [withCell(one, agent, done(fails))];
    if (step.isBlocked) return after;
    const [, ...cells] = withCell(one, agent, done(step.outcome));
    return [...after, ...step.states.map((state) => [state, ...cells])];
  }

  /** @param {number} state @param {number} call @returns {boolean} whether it can take no effect */
  #isBlocked(state, call) {
    return this.mayFail[call] === undefined && this.model.step(state, call)?.isBlocked === true;
  }
}

/** @param {Configuration} one @param {number} agent @param {number} cell @returns {Configuration} */
function withCell(one, agent, cell) {
  const other = one.slice();
  other[agent + 1] = cell;
  return other;
}
