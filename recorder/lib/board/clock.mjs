// The time of a run, in milliseconds from its beginning. It goes on by a step with each move and each look at it, and
// to the end of a wait's time if that is up. So deadlines agree with the answers, and a seed has one time.

const { Float64Array } = globalThis;

/** How far the time goes on with each move, and with each look at it, in milliseconds. */
export const STEP = 0.01;

const NOW = 0;
const SEED = 1;
const REACHED = 2;
const FIRST_DEADLINE = 3;

// Before the run: the deadline of a wait that has no time, which is over at once.
const AT_ONCE = -1;

export class Clock {
  /** @param {number} agents how many @returns {SharedArrayBuffer} */
  static memory(agents) {
    return new SharedArrayBuffer((FIRST_DEADLINE + agents) * 8);
  }

  /** @param {SharedArrayBuffer} memory */
  constructor(memory) {
    this.times = new Float64Array(memory);
  }

  /** @param {number} seed of the run that begins */
  begin(seed) {
    this.times[NOW] = 0;
    this.times[SEED] = seed;
    this.times[REACHED] = AT_ONCE;
  }

  /** @returns {number} the seed of the run */
  seed() {
    return this.times[SEED];
  }

  /** @param {number} moves that were made */
  advance(moves) {
    this.times[NOW] += moves * STEP;
  }

  /** @returns {number} what time it is; looking takes time too */
  look() {
    this.times[NOW] += STEP;
    return this.times[NOW];
  }

  /** @returns {number} what time it is: this look takes no time */
  now() {
    return this.times[NOW];
  }

  /** @param {number} milliseconds for which the agent sleeps that has the turn */
  pass(milliseconds) {
    if (!(milliseconds > 0)) return;
    this.times[NOW] += milliseconds;
    this.times[REACHED] = this.times[NOW];
  }

  /**
   * A wait begins.
   * @param {number} agent
   * @param {number} milliseconds its timeout
   */
  setDeadline(agent, milliseconds) {
    this.times[FIRST_DEADLINE + agent] = milliseconds > 0 ? this.times[NOW] + milliseconds : AT_ONCE;
  }

  /** @param {number} agent that waits @returns {number} when its time is up */
  deadline(agent) {
    return this.times[FIRST_DEADLINE + agent];
  }

  /** @param {number} agent that waits @returns {boolean} whether its wait has no time: it is over at once */
  isAtOnce(agent) {
    return this.times[FIRST_DEADLINE + agent] === AT_ONCE;
  }

  /** @param {number} agent that waits @returns {boolean} whether its time is up by now, step by step or otherwise */
  hasPassed(agent) {
    return this.times[FIRST_DEADLINE + agent] <= this.times[NOW];
  }

  /**
   * Whether a wait's time is up because the time of another wait was, or because an agent slept. Single steps don't
   * count: they are as small as they are so that clocks go on.
   * @param {number} agent that waits
   */
  isDue(agent) {
    return this.times[FIRST_DEADLINE + agent] <= this.times[REACHED];
  }

  /** @param {number} agent whose wait's time is up */
  reachDeadline(agent) {
    const deadline = this.times[FIRST_DEADLINE + agent];
    if (deadline > this.times[NOW]) this.times[NOW] = deadline;
    if (deadline > this.times[REACHED]) this.times[REACHED] = deadline;
  }
}
